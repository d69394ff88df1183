"""Runs a program many times, a process each, and tells how each run ended and what it took.

The kernel counts the memory of what starts a process as that process's own, so a small launcher
stands between, which the C compiler `cc` makes. It is no script of its own: bench/damage.py uses
it.
"""

import collections
import os
import struct
import subprocess

SOURCE = r"""
#define _GNU_SOURCE
#include <stdint.h>
#include <stdlib.h>
#include <string.h>
#include <sys/mman.h>
#include <sys/resource.h>
#include <sys/wait.h>
#include <unistd.h>

enum { PIECE = 65536, WORDS = 4096, MOST = 32 };

static char piece[PIECE];

static void take(void *to, size_t size) {
    for (char *at = to; size > 0;) {
        ssize_t count = read(0, at, size);
        if (count <= 0) exit(0);
        at += count;
        size -= count;
    }
}

static void give(int file, const void *from, size_t size) {
    for (const char *at = from; size > 0;) {
        ssize_t count = write(file, at, size);
        if (count <= 0) exit(1);
        at += count;
        size -= count;
    }
}

/* An empty file in memory. */
static int new_file(void) {
    int file = memfd_create("file", MFD_CLOEXEC);
    if (file < 0) exit(1);
    return file;
}

/* A file in memory with so many bytes of standard input. */
static int given_file(uint64_t size) {
    int file = new_file();
    while (size > 0) {
        size_t count = size < PIECE ? size : PIECE;
        take(piece, count);
        give(file, piece, count);
        size -= count;
    }
    lseek(file, 0, SEEK_SET);
    return file;
}

static void give_file(int file, uint64_t size) {
    lseek(file, 0, SEEK_SET);
    while (size > 0) {
        ssize_t count = read(file, piece, PIECE);
        if (count <= 0) exit(1);
        give(1, piece, count);
        size -= count;
    }
    close(file);
}

/* The arguments: the program, and the words, each of which ends with a zero. */
static void part(char *program, char *words, size_t size, char **arguments) {
    int count = 0;
    arguments[count++] = program;
    for (char *at = words; at < words + size && count < MOST; at += strlen(at) + 1)
        arguments[count++] = at;
    arguments[count] = NULL;
}

static int64_t microseconds(struct timeval time) {
    return (int64_t)time.tv_sec * 1000000 + time.tv_usec;
}

/* Standard input, output and error of the program that is started. */
struct files { int input, output, told; };

static int start(char **arguments, struct files files, rlim_t seconds) {
    pid_t child = vfork();
    if (child != 0) return child;
    struct rlimit limit = {seconds, seconds};
    setrlimit(RLIMIT_CPU, &limit);
    dup2(files.input, 0);
    dup2(files.output, 1);
    dup2(files.told, 2);
    execv(arguments[0], arguments);
    _exit(127);
}

static void run(char **arguments, struct files files, rlim_t seconds) {
    int state;
    struct rusage usage;
    pid_t child = start(arguments, files, seconds);
    if (child < 0 || wait4(child, &state, 0, &usage) != child) exit(1);
    int64_t report[] = {
        WIFEXITED(state) ? WEXITSTATUS(state) : -WTERMSIG(state),
        microseconds(usage.ru_utime) + microseconds(usage.ru_stime),
        usage.ru_maxrss * 1024,
        lseek(files.output, 0, SEEK_END),
        lseek(files.told, 0, SEEK_END),
    };
    give(1, report, sizeof report);
    close(files.input);
    give_file(files.output, report[3]);
    give_file(files.told, report[4]);
}

int main(int count, char **given) {
    if (count != 3) return 1;
    uint64_t sizes[2];
    char words[WORDS], *arguments[MOST + 1];
    for (;;) {
        take(sizes, sizeof sizes);
        if (sizes[0] > WORDS) return 1;
        take(words, sizes[0]);
        part(given[2], words, sizes[0], arguments);
        struct files files = {given_file(sizes[1]), new_file(), new_file()};
        run(arguments, files, atol(given[1]));
    }
}
"""

REPORT = struct.Struct("@5q")

# How a run ended: its exit status, or a signal's number below 0; what it wrote to standard output
# and to standard error, its seconds of processor and its greatest memory in bytes.
Run = collections.namedtuple("Run", "status output told seconds memory")


def build(folder):
    """The launcher, made in a folder."""
    source, made = os.path.join(folder, "launch.c"), os.path.join(folder, "launch")
    with open(source, "w") as file:
        file.write(SOURCE)
    subprocess.run(["cc", "-O1", "-o", made, source], check=True)
    return made


class Launcher:
    """Runs a program, each time for so many seconds of processor at most."""

    def __init__(self, made, program, seconds):
        command = [made, str(seconds), program]
        self.process = subprocess.Popen(command, stdin=subprocess.PIPE, stdout=subprocess.PIPE)

    def run(self, data, words=()):
        """One run on an input and words."""
        line = b"".join(word.encode() + b"\0" for word in words)
        given, taken = self.process.stdin, self.process.stdout
        given.write(struct.pack("@2Q", len(line), len(data)) + line)
        given.write(data)
        given.flush()
        status, microseconds, memory, output, told = REPORT.unpack(taken.read(REPORT.size))
        return Run(status, taken.read(output), taken.read(told), microseconds / 1e6, memory)
