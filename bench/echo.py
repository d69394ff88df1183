#!/usr/bin/env python3
"""Times reading and writing of all of ESTree against plain JSON, and writing its text against
that. Builds nothing.

    python3 bench/echo.py INPUT..

Each INPUT is a file of ESTree JSON, as `node bench/real.js` writes one. The programs are
crates/mini_cases/out/mini_cases and crates/mini_text/out/mini_text of this repository: `rt
run` in their folders makes them; MINI_TEXT names another printer. Each input is run three
times as a program (`--echo`), three times as plain JSON (`--json`), and three times by the
printer, which also reads the same with a statement behind it that it refuses: so long reading
takes. A line has the least seconds of processor of each, their ratio, and the greatest peak
memory; a second what writing as text takes beside writing as JSON, without reading.
"""

import json
import os
import sys
import tempfile


def run(program, words, path):
    """One run: seconds of processor, peak memory in kB, status, and how many bytes were written."""
    with open(path, "rb") as source, tempfile.TemporaryFile() as sink:
        child = os.fork()
        if child == 0:
            os.dup2(source.fileno(), 0)
            os.dup2(sink.fileno(), 1)
            try:
                os.execv(program, [program, *words])
            finally:
                os._exit(127)
        _, code, usage = os.wait4(child, 0)
        sink.seek(0, 2)
        return usage.ru_utime + usage.ru_stime, usage.ru_maxrss, os.waitstatus_to_exitcode(code), sink.tell()


def built(name):
    here = os.path.dirname(os.path.dirname(os.path.abspath(__file__)))
    program = os.environ.get(name.upper()) or os.path.join(here, "crates", name, "out", name)
    if not os.access(program, os.X_OK):
        sys.exit(f"{program} is not there: run `rt run` in crates/{name} first")
    return program


def refused(path):
    """The program of a file with a statement behind it that isn't read, in a file."""
    with open(path) as source:
        program = json.load(source)
    name = {"type": "Identifier", "name": "a"}
    program["body"].append({"type": "WithStatement", "object": name, "body": {"type": "EmptyStatement"}})
    made = tempfile.NamedTemporaryFile("w", suffix=".json")
    json.dump(program, made, separators=(",", ":"), ensure_ascii=False)
    made.flush()
    return made


def tell_text(printer, path, whole_seconds):
    """Prints what the text of a program takes beside its JSON."""
    words = ["--max-depth=1000"]
    with refused(path) as made:
        runs = [(run(printer, words, path), run(printer, words, made.name)) for _ in range(3)]
    assert all((text[2], read[2]) == (0, 3) for text, read in runs), (path, runs)
    text, read = min(text[0] for text, _ in runs), min(read[0] for _, read in runs)
    memory = max(text[1] for text, _ in runs) / 1024
    times = (text - read) / (whole_seconds - read)
    print(
        f"{'':>17} reading {read:.3f} s  as text {text:.3f} s, {memory:.0f} MiB, {runs[0][0][3]:,} bytes out  "
        f"text beside JSON, both without reading {times:.2f}",
        flush=True,
    )


def main():
    program, printer = built("mini_cases"), built("mini_text")
    for path in sys.argv[1:]:
        whole, plain = [], []
        for _ in range(3):
            whole.append(run(program, ["--echo"], path))
            plain.append(run(program, ["--json"], path))
        assert all(r[2] == 0 for r in whole + plain), (path, whole, plain)
        seconds, json_seconds = min(r[0] for r in whole), min(r[0] for r in plain)
        memory, json_memory = max(r[1] for r in whole) / 1024, max(r[1] for r in plain) / 1024
        print(
            f"{os.path.getsize(path):>11,} bytes  as a program {seconds:.3f} s, {memory:.0f} MiB, {whole[0][3]:,} bytes out  "
            f"as JSON {json_seconds:.3f} s, {json_memory:.0f} MiB, {plain[0][3]:,} bytes out  ratio {seconds / json_seconds:.2f}",
            flush=True,
        )
        tell_text(printer, path, seconds)


if __name__ == "__main__":
    main()
