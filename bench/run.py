#!/usr/bin/env python3
"""Times the built program on generated scripts. Builds nothing.

    python3 bench/run.py [PROGRAM]

PROGRAM is crates/mini_app/out/mini_app of this repository unless it is given. `rt run` in crates/mini_app makes it.
Each input is run three times. A line has the least wall time, the least processor time, and the greatest peak memory.
Lines `flat` have short statements, lines `deep` have statements that nest to the limit of the JSON reader. Lines `real` have
all of ESTree, as acorn gives it for real code, with positions (`bench/real.js`, which wants node); between its runs the same
bytes are read and printed as plain JSON by `serde_json` (crates/mini_cases/out/mini_cases with `--json`: `rt run` in
crates/mini_cases makes it), and the line has how many times as long the program takes, of which at most 2.5 is wanted. The
lines `depth` try one deep program each, and say how it ended.
"""

import json
import os
import subprocess
import sys
import tempfile
import time

LIMIT = 16_777_216  # bytes that the program reads at most
NESTING = 127  # how deep JSON may nest
RUNS = 3
WANTED = 2.5  # times as long as plain JSON takes, at most
HERE = os.path.dirname(os.path.abspath(__file__))
DEEP = "--max-depth=1000"


def identifier(name):
    return {"type": "Identifier", "name": name}


def negation(argument):
    return {"type": "UnaryExpression", "operator": "!", "prefix": True, "argument": argument}


def logical(operator, left, right):
    return {"type": "LogicalExpression", "left": left, "operator": operator, "right": right}


def conditional(test, consequent, alternate):
    return {"type": "ConditionalExpression", "test": test, "consequent": consequent, "alternate": alternate}


def call(name):
    return {"type": "CallExpression", "callee": identifier(name), "arguments": [], "optional": False}


def statement(expression):
    return {"type": "ExpressionStatement", "expression": expression}


def branch(test, consequent, alternate=None):
    return {"type": "IfStatement", "test": test, "consequent": consequent, "alternate": alternate}


def flat_statement(n):
    """One of eight short statements, with names that differ."""
    a, b, c, d = (identifier(f"{letter}{n}") for letter in "abcd")
    f, g = (call(f"{letter}{n}") for letter in "fg")
    forms = [
        lambda: branch(negation(a), statement(f), statement(g)),  # if (!a) f(); else g();
        lambda: branch(a, statement(f)),  # if (a) f();
        lambda: branch(negation(logical("&&", a, b)), statement(g)),  # if (!(a && b)) g();
        lambda: statement(conditional(negation(a), b, f)),  # !a ? b : f();
        lambda: statement(logical("||", negation(negation(a)), g)),  # !!a || g();
        lambda: branch(a, branch(b, statement(f), statement(g)), statement(c)),  # if (a) if (b) f(); else g(); else c;
        lambda: statement(negation(logical("&&", negation(a), logical("||", c, d)))),  # !(!a && (c || d));
        lambda: statement(f),  # f();
    ]
    return forms[n % len(forms)]()


def deep_statement(depth):
    """Conditionals in the alternate of one another: JSON that nests this deep, the statement being at depth 1."""
    expression = identifier("z")
    for n in range(depth - 3):
        test = identifier(f"t{n}")
        expression = conditional(negation(test) if n % 2 else test, call("f"), expression)
    return statement(expression)


def deep_branch(depth):
    """An `if` over a test of `&&` in `&&`: JSON that nests this deep, the statement being at depth 1."""
    expression = identifier("z")
    for _ in range(depth - 2):
        expression = logical("&&", expression, identifier("y"))
    return branch(expression, statement(call("f")))


def text(value):
    return json.dumps(value, separators=(",", ":")).encode()


def script(statements):
    return text({"type": "Program", "sourceType": "script", "body": statements})


def script_of_size(size, make):
    """As many statements as the size has room for."""
    parts, length, n = [], len(script([])), 0
    while True:
        part = text(make(n))
        if length + len(part) + 1 > size:
            break
        parts.append(part)
        length += len(part) + 1
        n += 1
    head, tail = script([]).split(b"[]")
    return head + b"[" + b",".join(parts) + b"]" + tail


def nesting(data):
    """How deep a JSON text nests."""
    depth = most = 0
    for byte in data:
        if byte in b"{[":
            depth += 1
            most = max(most, depth)
        elif byte in b"}]":
            depth -= 1
    return most


def run(program, data, *words):
    """One run: seconds, processor seconds, peak memory in kB, status, and what was written."""
    with tempfile.TemporaryFile() as source, tempfile.TemporaryFile() as sink, tempfile.TemporaryFile() as notes:
        source.write(data)
        source.seek(0)
        start = time.perf_counter()
        child = os.fork()
        if child == 0:
            os.dup2(source.fileno(), 0)
            os.dup2(sink.fileno(), 1)
            os.dup2(notes.fileno(), 2)
            try:
                os.execv(program, [program, *words])
            finally:
                os._exit(127)
        _, code, usage = os.wait4(child, 0)
        seconds = time.perf_counter() - start
        sink.seek(0)
        notes.seek(0)
        return {
            "seconds": seconds,
            "processor": usage.ru_utime + usage.ru_stime,
            "memory": usage.ru_maxrss,
            "status": os.waitstatus_to_exitcode(code),
            "written": sink.read(),
            "notes": notes.read(),
        }


def measure(name, program, data):
    runs = [run(program, data, DEEP) for _ in range(RUNS)]
    first = runs[0]
    assert all(r["written"] == first["written"] and r["status"] == first["status"] for r in runs)
    if first["status"] == 0:
        answer = json.loads(first["written"])
        end = f"passes {answer['passes']}, settled {str(answer['settled']).lower()}, {len(first['written']):,} bytes out"
    else:
        end = f"status {first['status']}"
    seconds = min(r["seconds"] for r in runs)
    processor = min(r["processor"] for r in runs)
    memory = max(r["memory"] for r in runs) / 1024
    megabytes = len(data) / 1e6
    print(
        f"{name:10} {len(data):>11,} bytes  {seconds:7.3f} s  {processor:7.3f} s of processor  "
        f"{processor / megabytes:6.3f} s/MB  {memory:8.1f} MiB  {end}",
        flush=True,
    )


def real_script(size):
    """ESTree of real code, in at most so many bytes."""
    words = ["node", "--expose-internals", os.path.join(HERE, "real.js"), str(size)]
    return subprocess.run(words, stdout=subprocess.PIPE, check=True).stdout


def least(runs, key):
    return min(r[key] for r in runs)


def measure_real(name, program, echo, data):
    """The whole run beside serde_json's read and print of the same bytes, in turn."""
    whole, plain = [], []
    for _ in range(RUNS):
        whole.append(run(program, data))
        plain.append(run(echo, data, "--json"))
    assert all(r["status"] == 0 for r in whole + plain), [r["status"] for r in whole + plain]
    answer = json.loads(whole[0]["written"])
    seconds, processor, json_processor = least(whole, "seconds"), least(whole, "processor"), least(plain, "processor")
    memory, json_memory = (max(r["memory"] for r in runs) / 1024 for runs in (whole, plain))
    ratio = processor / json_processor
    print(
        f"{name:10} {len(data):>11,} bytes  {seconds:7.3f} s  {processor:7.3f} s of processor  {memory:8.1f} MiB  "
        f"passes {answer['passes']}, {len(answer['kept']):,} numbers, {len(answer['symbols']):,} symbols, "
        f"{len(whole[0]['written']):,} bytes out; as plain JSON {json_processor:.3f} s of processor, {json_memory:.1f} MiB, "
        f"{len(plain[0]['written']):,} bytes out; {ratio:.2f} times as long{'' if ratio <= WANTED else ', which is too long'}",
        flush=True,
    )


def try_depth(name, program, data):
    got = run(program, data, DEEP)
    line = f"depth      {name}: JSON nests {nesting(data)} deep, status {got['status']}"
    if got["status"] == 0:
        answer = json.loads(got["written"])
        line += f", passes {answer['passes']}, settled {str(answer['settled']).lower()}"
        line += f", the program written nests {nesting(text(answer['program']))} deep"
        again = run(program, text(answer["program"]), DEEP)
        line += f", given again status {again['status']}"
    print(line, flush=True)


def built(crate):
    program = os.path.join(os.path.dirname(HERE), "crates", crate, "out", crate)
    if not os.access(program, os.X_OK):
        sys.exit(f"{program} is not there: run `rt run` in crates/{crate} first")
    return program


def main():
    program = os.path.abspath(sys.argv[1]) if len(sys.argv) > 1 else built("mini_app")
    echo = built("mini_cases")
    measure("flat 10 KB", program, script_of_size(10_000, flat_statement))
    measure("flat 1 MB", program, script_of_size(1_000_000, flat_statement))
    measure("flat 16 MB", program, script_of_size(LIMIT, flat_statement))
    measure("deep 1 MB", program, script_of_size(1_000_000, lambda n: deep_statement(NESTING - 2)))
    measure("deep 16 MB", program, script_of_size(LIMIT, lambda n: deep_statement(NESTING - 2)))
    measure_real("real 1 MB", program, echo, real_script(1_000_000))
    measure_real("real 16 MB", program, echo, real_script(LIMIT))
    try_depth("60 conditionals", program, script([deep_statement(63)]))
    try_depth("conditionals to the limit", program, script([deep_statement(NESTING - 2)]))
    try_depth("conditionals past the limit", program, script([deep_statement(NESTING - 1)]))
    try_depth("a test to the limit", program, script([deep_branch(NESTING - 2)]))


if __name__ == "__main__":
    main()
