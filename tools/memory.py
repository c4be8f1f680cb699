#!/usr/bin/env python3
"""Sees that the program takes no memory once a session has begun or a byte was written, and what becomes of a run without memory.

Usage: tools/memory.py PROGRAM [SESSIONS]

Requests for memory are counted: calls of malloc, calloc, realloc and their kind, and of mmap, mremap, brk and sbrk. It runs the commands
below, SESSIONS (200) random sessions over 12 to 60 nodes with edits and all asks, and three such over full tables. In each run some
requests are to be made before the first byte is taken from the standard input or written to the standard output, and none after it. A
session takes no byte before it has begun. `place`, `verify` and `trial` write nothing before they have found their answer, so two runs
are held against each other: `place` makes as many requests as a session over the same files, but for the one word more that this has, and
for the list in which it counts the injections at each bus for its summary; a certificate whose first claim fails as many as one that
holds; and a trial as many as one with another seed. So are those of a study of losses, which writes nothing before all is found: over the
same rows, none of which is in service, it makes as many.

Then each command is run again and again. The first request is refused, then the second alone, and so on, up to the last. Such a run is
to end with 6 and nothing written.

It says what it counted, and each run that is otherwise; the status is 1 then. It needs a C compiler (cc) and a system with the GNU C
library, before whose calls it stands. Where there is no cc it says so, and ends with 0.
"""
import os
import random
import shutil
import subprocess
import sys
import tempfile

import middle
import relations
import shapes
from cases import records_of
from model_studies import STUDIES
from runs import Runs

TABLES = ["nodes.csv", "switches.csv", "branches.csv", "meters.csv"]
EXAMPLES = os.path.join(os.path.dirname(os.path.abspath(__file__)), "..", "examples")
# Some lists have a sixteenth of the length of an array. Over so many buses none of them is empty, which would take no request.
MANY = 16
EVERY_ASK = ["place", "status", "tree", "bound", "islands", "critical", "cert", "report", "place"]
FULL = ["grid", "small", "stations"]
COMMANDS = [
    ("substation", ["topology", "nodes.csv", "switches.csv"], []),
    ("short", ["report", "tables", *TABLES], []),
    ("ieee14", ["report", "cdf", "case.cdf", "meters.csv"], []),
    ("case9", ["report", "matpower", "case.m", "meters.csv"], []),
    ("short", ["place", "tables", *TABLES, "candidates.csv"], []),
    ("angles", ["report", "tables", *TABLES], []),
    *(("angles", [study, "tables", *TABLES], []) for study in STUDIES),
    ("own", ["session", "tables", *TABLES], ["trip North-West", "restore North-West", "lose West P", *EVERY_ASK]),
    ("short", ["session", "tables", *TABLES, "with", "candidates.csv"], EVERY_ASK),
    ("ieee14", ["verify", "tables", *TABLES, "trees.txt"], []),
    ("short", ["verify", "tables", *TABLES, "with", "candidates.csv", "plan.txt"], []),
    ("angles", ["session", "tables", *TABLES, "with", "candidates.csv"], ["restore Ridge-Lake", "regain Harbour phasor", *EVERY_ASK]),
    ("short", ["trial", "3", "1"], []),
]
BETWEEN = r"""
#define _GNU_SOURCE
#include <dlfcn.h>
#include <errno.h>
#include <stdarg.h>
#include <stddef.h>
#include <stdint.h>
#include <stdio.h>
#include <stdlib.h>
#include <sys/mman.h>
#include <sys/syscall.h>
#include <sys/uio.h>
#include <unistd.h>
extern void *__libc_malloc(size_t), *__libc_calloc(size_t, size_t), *__libc_realloc(void *, size_t), *__libc_memalign(size_t, size_t);
extern void *__sbrk(intptr_t);
static long asked = 0, before = -1, refused = -2;
static int is_refused(void) {
  if (refused == -2) { const char *s = getenv("REFUSED"); refused = s ? atol(s) : -1; }
  return asked++ == refused;
}
static void begin(void) { if (before < 0) before = asked; }
void *malloc(size_t size) { return is_refused() ? 0 : __libc_malloc(size); }
void *calloc(size_t count, size_t size) { return is_refused() ? 0 : __libc_calloc(count, size); }
void *realloc(void *old, size_t size) { return is_refused() ? 0 : __libc_realloc(old, size); }
void *memalign(size_t to, size_t size) { return is_refused() ? 0 : __libc_memalign(to, size); }
void *aligned_alloc(size_t to, size_t size) { return memalign(to, size); }
int posix_memalign(void **at, size_t to, size_t size) { return (*at = memalign(to, size)) ? 0 : ENOMEM; }
void *mmap(void *at, size_t size, int may, int how, int file, off_t from) {
  return is_refused() ? MAP_FAILED : (void *)syscall(SYS_mmap, at, size, may, how, file, from);
}
void *mremap(void *old, size_t size, size_t now, int how, ...) {
  va_list rest;
  va_start(rest, how);
  void *at = va_arg(rest, void *);
  va_end(rest);
  return is_refused() ? MAP_FAILED : (void *)syscall(SYS_mremap, old, size, now, how, at);
}
int brk(void *end) {
  int (*next)(void *) = (int (*)(void *))dlsym(RTLD_NEXT, "brk");
  return is_refused() ? -1 : next(end);
}
void *sbrk(intptr_t more) { return is_refused() ? (void *)-1 : __sbrk(more); }
ssize_t read(int file, void *into, size_t size) { if (file == 0) begin(); return syscall(SYS_read, file, into, size); }
ssize_t readv(int file, const struct iovec *into, int count) { if (file == 0) begin(); return syscall(SYS_readv, file, into, count); }
ssize_t write(int file, const void *from, size_t size) { if (file == 1) begin(); return syscall(SYS_write, file, from, size); }
ssize_t writev(int file, const struct iovec *from, int count) { if (file == 1) begin(); return syscall(SYS_writev, file, from, count); }
ssize_t __read(int file, void *into, size_t size) { return read(file, into, size); }
ssize_t __write(int file, const void *from, size_t size) { return write(file, from, size); }
__attribute__((destructor)) static void tell(void) {
  const char *to = getenv("TOLD");
  if (to && dprintf(atoi(to), "%ld %ld\n", before < 0 ? 0 : before, before < 0 ? asked : asked - before) < 0) _exit(99);
}
"""


class Watched:
    """Runs the program with a library before its calls for memory, and counts the runs that aren't as they are to be."""

    def __init__(self, program, scratch):
        self.program, self.library, self.odd = os.path.abspath(program), os.path.join(scratch, "between.so"), 0
        source = os.path.join(scratch, "between.c")
        with open(source, "w") as file:
            file.write(BETWEEN)
        subprocess.run(["cc", "-shared", "-fPIC", "-O1", "-w", "-o", self.library, source, "-ldl"], check=True)
        seven, eight = (self.run(scratch, ["word"] * count)[2] for count in (7, 8))
        self.word = eight - seven

    def run(self, folder, words, lines=b"", refused=-1):
        """The status, what was written, and how many requests were made before the first byte and after it: none of a run by a signal."""
        come, gone = os.pipe()
        given = dict(os.environ, LD_PRELOAD=self.library, REFUSED=str(refused), TOLD=str(gone))
        ended = subprocess.run([self.program, *words], cwd=folder, env=given, input=lines, capture_output=True, pass_fds=[gone])
        os.close(gone)
        told = os.read(come, 100).decode()
        os.close(come)
        return ended.returncode, ended.stdout, *(map(int, told.split()) if told else (0, 0))

    def see(self, is_good, what):
        if not is_good:
            self.odd += 1
            print(f"odd: {what}")

    def count(self, name, folder, words, lines=b""):
        """How many requests a run makes before the first byte, where it makes any and none after it."""
        status, _, before, after = self.run(folder, words, lines)
        what = f"{name}: status {status}, {before} requests before the first byte, {after} after"
        self.see(status in (0, 1) and before and not after, what)
        return before


def count_commands(watched):
    for folder, words, lines in COMMANDS:
        count = watched.count(" ".join(words), os.path.join(EXAMPLES, folder), words, relations.lines_of(lines))
        print(f"{' '.join(words)}: {count} requests")


def count_claims(watched, runs, name, form, lines):
    runs.write("claims", b"\n".join(lines))
    return watched.count(f"{name} verified", runs.folder, ["verify", *form, "claims"])


def count_session(watched, runs, name, tables, r, edits):
    """The requests of a session with edits and all asks, and beside it those of `place` and of `verify`."""
    form, offered = tables.write(runs)
    words, folder = ["session", *form, "with", offered], runs.folder
    lines = [line for _, _, line in tables.some_edits(r, edits)[1]]
    half = len(lines) // 2
    count = watched.count(name, folder, words, relations.lines_of([*lines[:half], *EVERY_ASK, *lines[half:], *EVERY_ASK]))
    placed = watched.count(f"{name}, place", folder, ["place", *form, offered])
    placed += watched.word - 1
    watched.see(placed == count, f"{name}: {placed} requests of place with a word more and no summary, {count} of a session")
    for ask in "cert", "place":
        claims = watched.run(folder, words, relations.lines_of([ask]))[1].split(b"\n")
        if len(claims) > 3:
            spoilt = [claims[0], b"\t".join([*claims[1].split(b"\t")[:-1], b"9" * 19]), *claims[2:]]
            checked = [count_claims(watched, runs, f"{name}, {ask}", [*form, "with", offered], lines) for lines in (claims, spoilt)]
            watched.see(checked[0] == checked[1], f"{name}, {ask}: {checked} requests of a certificate that holds and one with a flaw")
    return count


def count_studies(watched, runs, name, tables, studies):
    """Where no branch and no meter is in service nothing is searched: as many requests as where some are."""
    tables = tables.copy()
    nodes = tables.rows["nodes"]
    nodes += [[f"alone {k}", *["0"] * (len(nodes[0]) - 1)] for k in range(MANY)]
    out = tables.copy()
    for row in [*out.rows["branches"], *out.rows["meters"]]:
        row[-1] = "0"
    form, other = tables.write(runs, "all-")[0], out.write(runs, "out-")[0]
    for study in studies:
        counts = [watched.count(f"{name}, {study}", runs.folder, [study, *words]) for words in (form, other)]
        watched.see(counts[0] == counts[1], f"{name}, {study}: {counts} requests with rows in service and without")


def count_sessions(watched, runs, sessions):
    total = 0
    for number in range(sessions):
        r = random.Random(number)
        records = zip(relations.FIVE, records_of(middle.random_middle(r)))
        tables = relations.Tables({part: [[word.decode() for word in row] for row in rows[1:]] for part, rows in records})
        total += count_session(watched, runs, f"session {number}", tables, r, 40)
        count_studies(watched, runs, f"session {number}", tables, STUDIES)
    print(f"{sessions} random sessions: {total} requests")
    for name in FULL:
        shapes.write(name, runs.folder)
        tables = relations.Tables.of_folder(runs.folder)
        count = count_session(watched, runs, name, tables, random.Random(0), 200)
        count_studies(watched, runs, name, tables, [study for study in STUDIES if study != "outages"])
        print(f"a session over {name}: {count} requests")


def count_trials(watched, scratch):
    counts = [watched.count(f"trial 5 {seed}", scratch, ["trial", "5", seed]) for seed in ("1", "2")]
    watched.see(counts[0] == counts[1], f"{counts} requests of two trials")


def refuse_all(watched):
    total = 0
    for folder, words, lines in COMMANDS:
        run = lambda refused: watched.run(os.path.join(EXAMPLES, folder), words, relations.lines_of(lines), refused)
        refused = 0
        while True:
            status, out, *asked = run(refused)
            if sum(asked) <= refused:
                break
            watched.see((status, out) == (6, b""), f"{' '.join(words)}, request {refused} refused: status {status}, {out[:60]!r}")
            refused += 1
        total += refused
    print(f"{total} requests refused, one a run")


def main():
    program, sessions = sys.argv[1], int((sys.argv[2:] or ["200"])[0])
    if not shutil.which("cc"):
        sys.exit(print("tools/memory.py: there is no C compiler (cc), so no request for memory was counted"))
    with tempfile.TemporaryDirectory() as scratch:
        watched = Watched(program, scratch)
        count_commands(watched)
        count_sessions(watched, Runs(program, scratch), sessions)
        count_trials(watched, scratch)
        refuse_all(watched)
    print(f"{watched.odd} runs odd")
    sys.exit(watched.odd > 0)


if __name__ == "__main__":
    main()
