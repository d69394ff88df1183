"""Where the time of a run goes, by the crates of its functions, as perf samples it: Debian's linux-perf.

    python3 bench/parts.py INPUT [WORD..]

runs crates/mini_app/out/mini_app on INPUT with these words, a thousand samples a second, and prints for each part its share and
its seconds of processor. What a part asks of the allocator and of the kernel is counted as theirs. With --passes=1 no look at names
follows the first, so that `names` is resolution alone, with all its tables.
"""
import collections
import os
import re
import subprocess
import sys
import tempfile

PROGRAM = os.path.join(os.path.dirname(os.path.abspath(__file__)), "..", "crates", "mini_app", "out", "mini_app")
PARTS = {
    "JSON": r"^(serde_json|json|simdutf8|itoa|std_collections)",
    "reading": r"^mini_(fields|plan|estree)",
    "names": r"^mini_(scope|context)",
    "rewriting": r"^mini_(walk|logic|syntax|stmt|tree|peephole)",
    "writing": r"^mini_writer",
    "nodes": r"^mini_node",
    "memory": r"(malloc|free|alloc|unlink_chunk|memmove|memcpy|memset)",
}


def part_of(symbol, in_kernel):
    if in_kernel:
        return "kernel"
    return next((name for name, test in PARTS.items() if re.search(test, symbol)), "other")


def main():
    if len(sys.argv) < 2:
        raise SystemExit(__doc__)
    with tempfile.TemporaryDirectory() as folder:
        data = os.path.join(folder, "perf.data")
        with open(sys.argv[1], "rb") as read:
            command = ["perf", "record", "-F", "999", "-o", data, PROGRAM, *sys.argv[2:]]
            subprocess.run(command, stdin=read, stdout=subprocess.DEVNULL, stderr=subprocess.DEVNULL, check=True)
        command = ["perf", "report", "-i", data, "--stdio", "--no-children", "-F", "sample,symbol"]
        report = subprocess.run(command, capture_output=True, text=True, check=True).stdout
    counts = collections.Counter()
    for line in report.splitlines():
        found = re.match(r"\s*(\d+)\s+\[(.)\]\s+(\S+)", line)
        if found:
            counts[part_of(found[3], found[2] == "k")] += int(found[1])
    total = sum(counts.values())
    for name, count in counts.most_common():
        print(f"{name:<12}{100 * count / total:6.1f} %{count / 999:8.3f} s")


main()
