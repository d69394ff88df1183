#!/usr/bin/env python3
"""Feeds damaged and odd programs to the built program, and looks at how each run ends.

    python3 bench/damage.py [PROGRAM [COUNT [SEED [JOBS]]]]

PROGRAM is crates/mini_app/out/mini_app of this repository unless it is given, SEED is 1 and JOBS
is 4. COUNT is how many damaged inputs there are, 10,000 unless it is given, or with an `s` behind
it for how many seconds some are made, as `120s`. `=N` writes the damaged input N of the seed to
standard output, its words to standard error, and runs nothing. Of the program nothing is built;
the C compiler `cc` makes a launcher (bench/launch.py).

First come odd inputs whose status is known: JSON that nests to and past the limits, names and texts
of 1 MB, 2,000,000 keys, UTF-8 cut in two, and inputs as long as the limit and longer. Then comes
one of examples/*.json, of bench/forms.js (which wants node) or of the stored runs of
crates/mini_cases at a time, with one to four damages: of the tree (nodes dropped, doubled, moved,
copied, swapped, wrapped in negations, named or typed otherwise, and lists made many times as long),
or of that and then of the text (bits, bytes, characters and tokens, dropped, doubled and moved).
Every fourth is run with words.

Each run must end with a status of its table that such a run can have (0, 2 or 3; 6 beyond the
limit), write to standard output only with status 0, one line of JSON with the members of an answer,
and tell of a refusal, in one line, only with status 3. The last lines have how often each status
came, and which inputs took the most processor time and memory a byte, beside the median of those
that are answered: a run's own part, that of an empty script being taken away, and an input counting
as LEAST bytes at least. Above TIMES the median is wrong.
"""

import array
import collections
import heapq
import json
import marshal
import pathlib
import random
import re
import statistics
import sys
import tempfile
import time
from concurrent.futures import FIRST_COMPLETED, ProcessPoolExecutor, wait

import launch
from memory import forms

ROOT = pathlib.Path(__file__).resolve().parent.parent
LIMIT = 16_777_216  # bytes that the program reads at most
NESTING = 127  # how deep JSON may nest
DEPTH = 120  # how deep nodes may nest
LEAST = 50_000  # bytes that an input counts at least where time and memory a byte are told
TIMES = 10  # times the median that an input may take a byte
LONG = 200_000  # bytes up to which lists are made longer
SECONDS = 120  # that a run may take
CHUNK = 500  # damaged inputs that a process makes at a time
WORST = 5  # inputs that are told
NOTE = re.compile(rb"refused: (BadShape|Unsupported|TooDeep|EarlyName|EarlyJump) at [^\n]*\n")
MEMBERS = ["kept", "passes", "program", "settled", "symbols"]
TOKEN = re.compile(rb'"(?:[^"\\]|\\.)*"|[\w.+-]+|[^\w\s]')

# ---- parts of programs


def name(text):
    return {"type": "Identifier", "name": text}


def negations(argument, times):
    for _ in range(times):
        head = {"type": "UnaryExpression", "operator": "!", "prefix": True}
        argument = {**head, "argument": argument}
    return argument


def call(value):
    """A call of `f` on a literal."""
    argument = {"type": "Literal", "value": value}
    return {"type": "CallExpression", "callee": name("f"), "arguments": [argument]}


def script(*expressions):
    body = [{"type": "ExpressionStatement", "expression": expression} for expression in expressions]
    return {"type": "Program", "sourceType": "script", "body": body}


def text(value):
    found = json.dumps(value, separators=(",", ":"), ensure_ascii=False)
    return found.encode("utf-8", "surrogatepass")


# ---- odd inputs


def key(n):
    """One of some hundred thousand keys of up to three characters."""
    letters = [chr(code) for code in range(33, 127) if chr(code) not in '"\\']
    found = ""
    for _ in range(3):
        n, at = divmod(n, len(letters))
        found += letters[at]
    return found


def with_keys(count, make):
    """A program with so many keys that it doesn't ask for."""
    keys = ",".join(f'"{make(n)}":0' for n in range(count))
    return f'{{{keys},"type":"Program","sourceType":"script","body":[]}}'.encode()


def nest_text(times, opening, inside, closing):
    return opening * times + inside + closing * times


def cut_character(value, piece, at):
    """The text of a value, with the first bytes of a piece alone."""
    return text(value).replace(piece, piece[:at])


def negated(times):
    return f"{times} negations", text(script(negations(name("a"), times)))


def deep_inputs():
    # A statement's expression stands 3 deep, as JSON and as a node; each negation adds a level.
    for times in range(DEPTH - 5, DEPTH):
        yield *negated(times), 0 if times + 3 <= DEPTH else 3
    for times in range(NESTING - 5, NESTING + 1):
        yield *negated(times), 3 if times + 4 <= NESTING else 2
    for times in (NESTING - 1, NESTING, NESTING + 1, 1_000, LIMIT // 2):
        yield f"{times} lists", nest_text(times, b"[", b"", b"]"), 3 if times <= NESTING else 2
        yield f"{times} lists that don't end", b"[" * times, 2
    for times in (NESTING - 1, NESTING, NESTING + 1, 1_000, LIMIT // 8):
        nested = nest_text(times, b'{"a":', b"0", b"}")
        yield f"{times} objects", nested, 3 if times <= NESTING else 2


def long_inputs():
    million = "a" * 1_000_000
    yield "a name of 1 MB", text(script(name(million))), 0
    gothic = "\U00010330" * 250_000
    yield "a name of 1 MB, of characters of four bytes", text(script(name(gothic))), 0
    yield "a name of 1 MB that ends badly", text(script(name(million + "-"))), 3
    yield "a text of 1 MB", text(script(call(million))), 0
    yield "a type of 1 MB", text({"type": million}), 3
    yield "a key of 1 MB", text({**script(), million: 0}), 0
    yield "a number of 1 MB", text(script()).replace(b"[]", b"9" * 1_000_000), 2
    yield "2,000,000 keys", with_keys(2_000_000, key), 0
    yield "750,000 keys that differ", with_keys(750_000, key), 0
    yield "2,000,000 times one key", with_keys(2_000_000, lambda n: "abc"), 0
    yield "a list of 8,000,000 numbers", b"[" + b"0," * 8_000_000 + b"0]", 3
    yield "spaces up to the limit", b" " * LIMIT, 2
    yield "spaces beyond the limit", b" " * (LIMIT + 1), 6
    yield "a program and spaces up to the limit", text(script()).ljust(LIMIT), 0
    yield "a program and spaces beyond the limit", text(script()).ljust(LIMIT + 1), 6


def broken_texts():
    for piece in ("é", "€", "\U00010330"):
        for at in range(1, len(piece.encode())):
            named = cut_character(script(name(f"a{piece}b")), piece.encode(), at)
            yield f"a name with {at} bytes of {piece}", named, 2
            yield f"{at} bytes of {piece} at the end", text(script()) + piece.encode()[:at], 2
    for piece in (b"\xc0\x80", b"\xed\xa0\x80", b"\xf4\x90\x80\x80", b"\xff", b"\x80"):
        yield f"a name with {piece!r}", text(script(name("a#b"))).replace(b"#", piece), 2
    for piece in (b"\\ud800", b"\\udc00", b"\\ud800\\ud800", b"\\u00", b"\\x41", b"\n", b"\0"):
        yield f"a name with {piece!r}", text(script(name("a#b"))).replace(b"#", piece), 2
    yield "a byte order mark", b"\xef\xbb\xbf" + text(script()), 2
    yield "nothing", b"", 2


def odd_inputs():
    yield from deep_inputs()
    yield from long_inputs()
    yield from broken_texts()


# ---- damage of trees


def places(value):
    """Each list or object of a value with a key of it."""
    found = []
    ahead = [value]
    while ahead:
        at = ahead.pop()
        if type(at) is dict:
            found += [(at, key) for key in at]
            ahead += [inner for inner in at.values() if type(inner) in (dict, list)]
        elif type(at) is list:
            found += [(at, key) for key in range(len(at))]
            ahead += [inner for inner in at if type(inner) in (dict, list)]
    return found


def nodes(value):
    return [(at, here) for at, here in places(value) if is_node(at[here])]


def is_node(value):
    return type(value) is dict and "type" in value


def copied(value):
    return marshal.loads(marshal.dumps(value))


def drop_node(program, chance):
    at, here = chance.choice(nodes(program))
    if chance.random() < 0.2:
        at[here] = None
    else:
        del at[here]


def double_node(program, chance):
    at, here = chance.choice(nodes(program))
    if isinstance(at, list):
        at[here:here] = [copied(at[here]) for _ in range(chance.randint(1, 3))]
    else:
        at[here] = [at[here], copied(at[here])]


def lengthen_list(program, chance):
    """Makes a list many times as long."""
    at, here = chance.choice(nodes(program))
    if isinstance(at, list):
        most = LONG // (len(text(at)) + 1)
        at[:] = [copied(item) for _ in range(chance.randint(1, max(1, most))) for item in at]


def place(to, there, node, chance):
    """Puts a node at a place, or before it in a list."""
    if isinstance(to, list) and (chance.random() < 0.5 or there >= len(to)):
        to.insert(there, node)
    else:
        to[there] = node


def copy_node(program, chance):
    found = nodes(program)
    (at, here), (to, there) = chance.choice(found), chance.choice(found)
    place(to, there, copied(at[here]), chance)


def move_node(program, chance):
    """Puts a node elsewhere, and a null in its place, or nothing."""
    found = nodes(program)
    (at, here), (to, there) = chance.choice(found), chance.choice(found)
    node = at[here]
    if at is program or to is at or to is node:
        return copy_node(program, chance)
    if chance.random() < 0.5:
        at[here] = None
    else:
        del at[here]
    place(to, there, copied(node), chance)


def swap_nodes(program, chance):
    found = nodes(program)
    (at, here), (to, there) = chance.choice(found), chance.choice(found)
    at[here], to[there] = copied(to[there]), copied(at[here])


def wrap_node(program, chance):
    at, here = chance.choice(nodes(program))
    at[here] = negations(at[here], chance.choice((1, 2, 3, 40, DEPTH - 3, NESTING)))


def change_text(program, chance):
    """Gives a name, a type or another text that of another place."""
    found = [(at, here) for at, here in places(program) if type(at[here]) is str]
    if found:
        (at, here), (to, there) = chance.choice(found), chance.choice(found)
        at[here] = to[there]


def change_plain(program, chance):
    found = [(at, here) for at, here in places(program) if type(at[here]) not in (dict, list)]
    numbers, texts = (0, 1, -1, 1.5, 2**53, 10**400), ("", "a", "eval", "arguments", "\ud800")
    if found:
        at, here = chance.choice(found)
        at[here] = chance.choice((None, True, False, *numbers, *texts, [], {}))


SHORT_DAMAGES = (
    drop_node,
    double_node,
    copy_node,
    move_node,
    swap_nodes,
    wrap_node,
    change_text,
    change_plain,
)
# Long lists take most of the time, and come in one of some hundred damages.
TREE_DAMAGES = SHORT_DAMAGES * 12 + (lengthen_list,)

# ---- damage of text


def flip_bit(data, chance):
    at = chance.randrange(len(data))
    data[at] ^= 1 << chance.randrange(8)


def cut_bytes(data, chance):
    at = chance.randrange(len(data))
    del data[at : at + chance.randint(1, 40)]


def repeat_bytes(data, chance):
    at = chance.randrange(len(data))
    piece = data[at : at + chance.randint(1, 40)]
    data[at:at] = piece * chance.randint(1, 8)


def move_bytes(data, chance):
    at = chance.randrange(len(data))
    piece = data[at : at + chance.randint(1, 40)]
    del data[at : at + len(piece)]
    there = chance.randint(0, len(data))
    data[there:there] = piece


def break_character(data, chance):
    """Puts in a part of a character, or half of a pair."""
    at = chance.randrange(len(data))
    data[at:at] = chance.choice(BROKEN)


def change_token(data, chance):
    """Drops a token, doubles it, puts it in place of another, or before another."""
    found = list(TOKEN.finditer(data))
    if found:
        one, other = chance.choice(found), chance.choice(found)
        piece = chance.choice((b"", one[0] * 2, one[0] + b"," + one[0], other[0], other[0] + one[0]))
        data[one.start() : one.end()] = piece


def move_token(data, chance):
    found = list(TOKEN.finditer(data))
    if found:
        one, other = chance.choice(found), chance.choice(found)
        first, last = sorted((one, other), key=lambda token: token.start())
        between = data[first.end() : last.start()]
        if first is not last:
            data[first.start() : last.end()] = between + first[0] + last[0]


BROKEN = (b"\xc3", b"\xe2\x82", b"\xf0\x90\x8c", b"\xed\xa0\x80", b"\xff", b"\\ud800", b"\\udc00", b"\0")
TEXT_DAMAGES = (
    flip_bit,
    cut_bytes,
    repeat_bytes,
    move_bytes,
    break_character,
    change_token,
    move_token,
)
MIXED_DAMAGES = TREE_DAMAGES + TEXT_DAMAGES * 12


def damaged(texts, chance):
    """A copy of one of the texts, with one to four damages, and their names."""
    program = [json.loads(chance.choice(texts))]
    kinds = TREE_DAMAGES if chance.random() < 0.7 else MIXED_DAMAGES
    damages = [chance.choice(kinds) for _ in range(chance.randint(1, 4))]
    for damage in damages:
        if damage in TREE_DAMAGES and nodes(program):
            damage(program, chance)
    data = bytearray(text(program[0] if program else None))
    for damage in damages:
        if damage in TEXT_DAMAGES and data:
            damage(data, chance)
    return ", ".join(damage.__name__ for damage in damages), bytes(data)


WORDS = (
    "--no-sequences",
    "--no-join-vars",
    "--keep-function-names",
    "--keep-class-names",
    "--pure-coercion",
    "--known-calls",
    "--passes=1",
    "--max-depth=1000",
    "--max-depth=5",
)


def some_words(chance):
    """No words mostly, or good ones."""
    if chance.random() < 0.75:
        return []
    found = chance.sample(WORDS, chance.randint(1, 4))
    depths = [word for word in found if word.startswith("--max-depth")]
    return [word for word in found if word not in depths[1:]]


def damaged_input(texts, seed, number):
    """The damaged input of a number: what it is called, its words and its bytes."""
    chance = random.Random(f"{seed} {number}")
    label, data = damaged(texts, chance)
    words = some_words(chance)
    return " ".join([f"damaged input {number} of {seed} ({label})", *words]), words, data


# ---- runs


def fault(ended, wanted):
    """What is wrong with how a run ended, or nothing. The status that is wanted is one of these."""
    if ended.status not in wanted:
        return f"status {ended.status}"
    if bool(ended.output) != (ended.status == 0):
        return f"status {ended.status}, and {len(ended.output)} bytes written"
    if bool(ended.told) != (ended.status == 3) or ended.told and not NOTE.fullmatch(ended.told):
        return f"status {ended.status}, and told {ended.told!r}"
    if ended.status == 0 and not is_answer(ended.output):
        return "no answer"
    return None


def is_answer(output):
    """Whether it is one line, of an answer."""
    return output.count(b"\n") == 1 and output[-1:] == b"\n" and sorted(members(output)) == MEMBERS


def members(output):
    """The members of an answer, which may nest too deep for python's reader."""
    try:
        return list(json.loads(output))
    except RecursionError:
        return MEMBERS
    except ValueError:
        return []


class Costs:
    """What a byte of input takes, of one of time and memory."""

    def __init__(self, base):
        self.base = base
        self.answered, self.all, self.worst = array.array("d"), array.array("d"), []

    def add(self, label, data, ended, cost):
        each = max(0, cost - self.base) / max(LEAST, len(data))
        self.all.append(each)
        if ended.status == 0 and len(data) >= LEAST:
            self.answered.append(each)
        self.keep([(each, len(data), label)])

    def keep(self, more):
        self.worst = heapq.nlargest(WORST, self.worst + more)

    def merge(self, other):
        self.answered += other.answered
        self.all += other.all
        self.keep(other.worst)

    def tell(self, what, unit):
        """Prints the median and the worst, and answers how many are above the bound."""
        median = statistics.median(self.answered or [0])
        if median == 0:
            return 0
        count = f"{len(self.answered)} answered inputs of {LEAST} bytes and more"
        print(f"{what} a MB: median {median * 1e6 * unit:.3f} of {count}; the worst:")
        for each, size, label in self.worst:
            times = f"{each / median:.1f} times"
            print(f"  {each * 1e6 * unit:.3f}, {times}: {label}, {size} bytes")
        return sum(each > TIMES * median for each in self.all)


class Results:
    """How runs ended, and what they took beside a run on an empty script."""

    def __init__(self, base):
        self.statuses, self.faults = collections.Counter(), []
        self.seconds, self.memory = Costs(base.seconds), Costs(base.memory)

    def add(self, label, data, ended, wanted):
        self.statuses[ended.status] += 1
        found = fault(ended, wanted)
        if found:
            self.faults.append(f"{found}: {label}: {data[:2000]!r}")
        self.seconds.add(label, data, ended, ended.seconds)
        self.memory.add(label, data, ended, ended.memory)

    def merge(self, other):
        self.statuses += other.statuses
        self.faults += other.faults
        self.seconds.merge(other.seconds)
        self.memory.merge(other.memory)

    def tell(self):
        for found in self.faults:
            print(found)
        above = self.seconds.tell("seconds", 1) + self.memory.tell("MiB", 1 / 2**20)
        inputs, wrong = sum(self.statuses.values()), len(self.faults)
        statuses = dict(sorted(self.statuses.items()))
        outcome = f"{wrong} wrong, {above} above {TIMES} times the median"
        print(f"{inputs} inputs, {outcome}; by status: {statuses}")
        return 1 if wrong or above else 0


def stored_programs():
    """The programs that are damaged."""
    texts = [path.read_bytes() for path in sorted((ROOT / "examples").glob("*.json"))]
    texts += [data for _, data in forms()]
    for line in (ROOT / "crates/mini_cases/stdin").read_bytes().splitlines():
        if line.startswith(b"answer "):
            texts.append(line.split(b" ", 2)[2])
    return texts


class Share:
    """What one of the processes that make and run damaged inputs holds."""

    def __init__(self, made, program, seed):
        self.launcher, self.seed = launch.Launcher(made, program, SECONDS), seed
        self.texts, self.base = stored_programs(), base_of(self.launcher)

    def run(self, numbers):
        results = Results(self.base)
        for number in numbers:
            label, words, data = damaged_input(self.texts, self.seed, number)
            wanted = (6,) if len(data) > LIMIT else (0, 2, 3)
            results.add(label, data, self.launcher.run(data, words), wanted)
        return results


SHARE = []


def start_share(made, program, seed):
    SHARE.append(Share(made, program, seed))


def run_share(numbers):
    return SHARE[0].run(numbers)


def base_of(launcher):
    """The least that a run takes: the median of runs on an empty script."""
    runs = [launcher.run(text(script())) for _ in range(9)]
    return sorted(runs, key=lambda run: run.seconds)[len(runs) // 2]


def chunks(count):
    """The numbers of the damaged inputs, in ranges: so many, or till so many seconds are over."""
    ends = time.monotonic() + float(count[:-1]) if count.endswith("s") else None
    last = 10**12 if ends else int(count)
    for first in range(0, last, CHUNK):
        if ends and time.monotonic() > ends:
            return
        yield range(first, min(first + CHUNK, last))


def run_damaged(made, program, count, seed, jobs, results):
    """Runs the damaged inputs, in so many processes."""
    with ProcessPoolExecutor(jobs, initializer=start_share, initargs=(made, program, seed)) as pool:
        waiting = set()
        for numbers in chunks(count):
            waiting.add(pool.submit(run_share, numbers))
            while len(waiting) > jobs * 2:
                done, waiting = wait(waiting, return_when=FIRST_COMPLETED)
                for ended in done:
                    results.merge(ended.result())
        for ended in waiting:
            results.merge(ended.result())


def show(seed, number):
    label, _, data = damaged_input(stored_programs(), seed, number)
    sys.stdout.buffer.write(data)
    print(label, file=sys.stderr)


def main():
    words = sys.argv[1:] + [None] * 4
    program = words[0] or str(ROOT / "crates/mini_app/out/mini_app")
    count, seed, jobs = words[1] or "10000", int(words[2] or 1), int(words[3] or 4)
    if count.startswith("="):
        return show(seed, int(count[1:]))
    with tempfile.TemporaryDirectory() as folder:
        made = launch.build(folder)
        launcher = launch.Launcher(made, program, SECONDS)
        results = Results(base_of(launcher))
        for label, data, status in odd_inputs():
            results.add(label, data, launcher.run(data), (status,))
        run_damaged(made, program, count, seed, jobs, results)
    return results.tell()


if __name__ == "__main__":
    sys.exit(main())
