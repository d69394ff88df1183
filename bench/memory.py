#!/usr/bin/env python3
"""Refuses memory to the built program, at each of its allocations in turn.

    python3 bench/memory.py [PROGRAM [WORD [JOBS]]]

PROGRAM is crates/mini_app/out/mini_app of this repository unless it is given. `rt run` in
crates/mini_app makes it. The inputs are the program's stored run, the first example, a refused
program, no JSON, and a program of each form that is read (bench/forms.js, which wants node); with
WORD those alone whose name has it. JOBS processes, 4 unless given, run at a time. The C compiler
`cc` makes a launcher (bench/launch.py) and a library that stands before the C library, and refuses
the Nth allocation alone, or all from the Nth on. For each input, N goes from 1 to the first that
the program doesn't come to. Each run must give status 7, tell nothing and write a beginning of the
answer, or end as without refusals. The last line counts the runs, and those with status 7 in which
something was written.
"""

import dataclasses
import itertools
import os
import pathlib
import subprocess
import sys
import tempfile
from concurrent.futures import ProcessPoolExecutor

import launch

SHIM = r"""
#define _GNU_SOURCE
#include <dlfcn.h>
#include <errno.h>
#include <fcntl.h>
#include <stdlib.h>
#include <unistd.h>

static long count;

static int is_refused(void) {
    const char *first = getenv("REFUSED");
    if (!first) return 0;
    long n = atol(first);
    count++;
    if (count < n || (count > n && !getenv("REFUSED_ON"))) return 0;
    int mark = open(getenv("REFUSED_MARK"), O_CREAT | O_WRONLY, 0600);
    if (mark >= 0) close(mark);
    errno = ENOMEM;
    return 1;
}

void *malloc(size_t size) {
    static void *(*next)(size_t);
    if (!next) next = dlsym(RTLD_NEXT, "malloc");
    return is_refused() ? NULL : next(size);
}

void *realloc(void *old, size_t size) {
    static void *(*next)(void *, size_t);
    if (!next) next = dlsym(RTLD_NEXT, "realloc");
    return is_refused() ? NULL : next(old, size);
}
"""

# let a; let a;
DECLARATION = (
    '{"type":"VariableDeclaration","kind":"let","declarations":'
    '[{"type":"VariableDeclarator","id":{"type":"Identifier","name":"a"}}]}'
)
SCRIPT = '{"type":"Program","sourceType":"script","body":[%s]}'
TWICE = (SCRIPT % f"{DECLARATION},{DECLARATION}").encode()
WANTING = 7  # the status where no memory was left
SECONDS = 60  # that a run may take
HERE = pathlib.Path(__file__).resolve().parent
CRATE = HERE.parent / "crates" / "mini_app"


def is_wanting(got, whole):
    """Whether no memory was left, and what was written is a beginning of the answer."""
    return got[0] == WANTING and whole[1].startswith(got[1]) and got[2] == b""


@dataclasses.dataclass
class Count:
    """How many runs there were, and how many found no memory, wrote something, or were wrong."""

    runs: int = 0
    wanting: int = 0
    begun: int = 0
    wrong: int = 0

    def add(self, got, whole, is_refused):
        self.runs += 1
        if is_refused and is_wanting(got, whole):
            self.wanting += 1
            self.begun += got[1] != b""
        elif got != whole:
            self.wrong += 1
            return False
        return True

    def merge(self, other):
        for field in dataclasses.fields(self):
            total = getattr(self, field.name) + getattr(other, field.name)
            setattr(self, field.name, total)


class Refusing:
    """Runs the program, with memory refused or not."""

    def __init__(self, folder, program):
        self.shim, self.program = os.path.join(folder, "refuse.so"), program
        self.mark = os.path.join(folder, f"refused-{os.getpid()}")
        self.launcher = launch.Launcher(os.path.join(folder, "launch"), "/usr/bin/env", SECONDS)

    def run(self, data, settings=()):
        return self.launcher.run(data, [*settings, self.program])[:3]

    def refuse(self, data, n, on):
        """A run with the Nth allocation refused, and whether the program came to it."""
        if os.path.exists(self.mark):
            os.remove(self.mark)
        settings = [f"LD_PRELOAD={self.shim}", f"REFUSED={n}", f"REFUSED_MARK={self.mark}"]
        got = self.run(data, [*settings, "REFUSED_ON=1"] if on else settings)
        return got, os.path.exists(self.mark)

    def refuse_each(self, name, data, on):
        """Runs with each allocation refused: how many the program makes, and their count."""
        count, whole = Count(), self.run(data)
        for n in itertools.count(1):
            got, is_refused = self.refuse(data, n, on)
            if not count.add(got, whole, is_refused):
                print(f"{name}: N = {n}: status {got[0]}, {got[1]!r}, {got[2]!r}")
            if not is_refused:
                return n - 1, count


def forms():
    """The programs of every form, each with its name."""
    command = ["node", "--expose-internals", HERE / "forms.js"]
    lines = subprocess.run(command, capture_output=True, check=True).stdout.splitlines()
    for line in lines:
        name, data = line.split(b"\t", 1)
        yield name.decode(), data


def inputs():
    yield "stored run", (CRATE / "stdin").read_bytes()
    yield "first example", (HERE.parent / "examples" / "choice.json").read_bytes()
    yield "refusal", TWICE
    yield "no JSON", b"[1,"
    yield from forms()


def build(folder):
    """Makes the launcher, and the library that refuses memory."""
    launch.build(folder)
    source, shim = os.path.join(folder, "refuse.c"), os.path.join(folder, "refuse.so")
    with open(source, "w") as file:
        file.write(SHIM)
    subprocess.run(["cc", "-O1", "-shared", "-fPIC", "-o", shim, source, "-ldl"], check=True)


REFUSING = []


def start(folder, program):
    REFUSING.append(Refusing(folder, program))


def refuse_each(name, data, on):
    return REFUSING[0].refuse_each(name, data, on)


def refuse_all(folder, program, chosen, jobs):
    """Runs each input with each allocation refused, alone and with all that follow."""
    count = Count()
    with ProcessPoolExecutor(jobs, initializer=start, initargs=(folder, program)) as pool:
        runs = [
            (name, [pool.submit(refuse_each, name, data, on) for on in (False, True)])
            for name, data in chosen
        ]
        for name, pair in runs:
            (one, alone), (all_on, together) = (run.result() for run in pair)
            count.merge(alone)
            count.merge(together)
            behind = f"{all_on} where none is answered behind a refused one"
            print(f"{name}: {one} allocations, and {behind}")
    return count


def main():
    words = sys.argv[1:] + [""] * 3
    program = os.path.abspath(words[0] or CRATE / "out" / "mini_app")
    if not os.access(program, os.X_OK):
        sys.exit(f"{program} is not there: run `rt run` in crates/mini_app first")
    with tempfile.TemporaryDirectory() as folder:
        build(folder)
        whole = Refusing(folder, program).run((CRATE / "stdin").read_bytes())
        if whole != (0, (CRATE / "stdout").read_bytes(), b""):
            sys.exit("the stored run doesn't give its stored answer: build the program first")
        chosen = [(name, data) for name, data in inputs() if words[1] in name]
        count = refuse_all(folder, program, chosen, int(words[2] or 4))
    if count.wanting == 0:
        sys.exit("nothing was refused: the program doesn't ask the C library for memory")
    begun = f"status {WANTING} in {count.wanting}, of which {count.begun} wrote something"
    print(f"{count.runs} runs, {begun}; {count.wrong} wrong")
    sys.exit(1 if count.wrong else 0)


if __name__ == "__main__":
    main()
