"""Calls the library for C over blocks that end where the memory ends: called by tools/library_check.py, which says how.

Each block stands at the end of a page behind which nothing may be read or written, or at the start of one before which nothing may be,
and has exactly the stated length. A call that reads or writes a byte beyond a block ends the process by a signal.

- the commands of tools/memory.py and then random cases (reports, placements, studies, certificates) and sessions, for so many seconds:
  the answer is that of a call over plain blocks, with exactly the room for it, a byte less, a few bytes and none
- sessions that stay, line by line, whose struct stands at such a place too; they are begun and ended without end in between
- sessions begun and ended some thousands of times: the process holds no more memory behind them
"""
import ctypes
import faulthandler
import mmap
import os
import random
import time

import library_check as check
import library_stays as stays
from cases import csv_of, random_case, records_of
from memory import COMMANDS
from model_studies import STUDIES
from obs import library
from relations import lines_of
from runs import number_of

PAGE = mmap.PAGESIZE
LIBC = ctypes.CDLL(None, use_errno=True)
LIBC.mmap.restype = ctypes.c_void_p
LIBC.mmap.argtypes = [ctypes.c_void_p, ctypes.c_size_t, ctypes.c_int, ctypes.c_int, ctypes.c_int, ctypes.c_long]
LIBC.mprotect.argtypes = [ctypes.c_void_p, ctypes.c_size_t, ctypes.c_int]
LIBC.munmap.argtypes = [ctypes.c_void_p, ctypes.c_size_t]
NONE = 0


class Block:
    """Memory between two pages that may not be touched."""

    def __init__(self):
        self.at, self.pages = None, 0

    def place(self, data, at_end=True):
        """The address of a copy of these bytes, which ends where the memory ends, or starts where it starts."""
        wanted = max(1, -(-len(data) // PAGE))
        if wanted > self.pages:
            self.free()
            self.pages = wanted
            self.at = LIBC.mmap(None, (wanted + 2) * PAGE, mmap.PROT_READ | mmap.PROT_WRITE, mmap.MAP_PRIVATE | mmap.MAP_ANONYMOUS, -1, 0)
            for edge in (self.at, self.at + (wanted + 1) * PAGE):
                if LIBC.mprotect(edge, PAGE, NONE):
                    check.fail("no page can be guarded")
        end = self.at + (self.pages + 1) * PAGE
        address = end - len(data) if at_end else self.at + PAGE
        ctypes.memmove(address, bytes(data), len(data))
        return address

    def free(self):
        if self.at:
            LIBC.munmap(self.at, (self.pages + 2) * PAGE)


class Guarded:
    """The calls, over guarded blocks."""

    def __init__(self, at_end):
        self.blocks, self.at_end = {}, at_end
        self.kept = self.place("session", bytes(ctypes.sizeof(library.Kept)))

    def place(self, name, data):
        return self.blocks.setdefault(name, Block()).place(data, self.at_end)

    def call(self, name, before, blocks, room):
        """The status of a call, and what is written."""
        given = [part for k, block in enumerate(blocks) for part in (self.place((name, k), block_bytes(block)), len(block))]
        text, written = self.place("text", bytes([check.FILL]) * room), self.place("written", bytes(8))
        call = getattr(ctypes.CDLL(os.environ["OBS_LIBRARY"]), name)
        call.restype, call.argtypes = ctypes.c_uint8, [ctypes.c_void_p] * len(before) + [ctypes.c_void_p, ctypes.c_size_t] * (len(blocks) + 1) + [ctypes.c_void_p]
        status = call(*before, *given, text, room, written)
        count = ctypes.c_size_t.from_address(written).value
        if count > room:
            check.fail(name, "says that", count, "bytes were written where there is room for", room)
        return status, ctypes.string_at(text, count)

    def run(self, blocks, given, room):
        return self.call("obs_run", [], [*blocks, given], room)

    def begin(self, blocks, room):
        return self.call("obs_session_begin", [self.kept], blocks, room)

    def line(self, line, room):
        return self.call("obs_session_line", [self.kept], [line], room)

    def end(self):
        call = ctypes.CDLL(os.environ["OBS_LIBRARY"]).obs_session_end
        call.restype, call.argtypes = None, [ctypes.c_void_p]
        call(self.kept)


def block_bytes(block):
    """A block as its bytes: lengths have eight each."""
    return block if isinstance(block, bytes) else b"".join(n.to_bytes(8, "little") for n in block)


def rooms_of(length):
    return sorted({room for room in (0, 1, length // 2, length - 1, length) if room >= 0})


def try_run(calls, what, blocks, given):
    """A call, with the room for its answer and with less."""
    status, written, text = check.call_with(*blocks, given, 4000000)
    whole = text[:written]
    for room in rooms_of(written):
        wanted = (status if room >= written else library.TEXT_TOO_LONG, whole[:room])
        check.agree((what, "room", room), calls.run(blocks, given, room), wanted)


def try_session(calls, what, blocks, given):
    """A session that stays, if it begins: each of its lines, with less than the room for the answer and then with that."""
    stay = stays.Stay()
    began = stay.begin(*blocks)
    check.agree((what, "begin"), calls.begin(blocks, len(began[1])), began)
    if began[0] != library.DONE:
        return
    for line in stays.lines_in(given):
        status, whole = stay.line(line)
        short = max(len(whole) - 1, 0)
        check.agree((what, line, short), calls.line(line, short), (status if short == len(whole) else library.TEXT_TOO_LONG, whole[:short]))
        check.agree((what, line), calls.line(line, len(whole)), (status, whole))
    stay.end()
    calls.end()


def random_run(number):
    """Blocks of a random command on a random case, and no input."""
    r = random.Random(number)
    files = [csv_of(r, records) for records in records_of(random_case(r))]
    command = r.choice(["report", "place", "topology", "verify", *STUDIES])
    words = [command] + ["tables"] * (command != "topology") + ["n", "s"] + ["b", "m"] * (command != "topology")
    head = 1 if command == "topology" else 2
    contents = [b""] * head + files[: len(words) - head]
    if command == "place":
        words, contents = [*words, "c"], [*contents, files[4]]
    if command == "verify":
        words, contents = [*words, "cert"], [*contents, r.choice([b"end\n", b"", b"tree\tx\nend\n", b"bound\tx\t0\t0\nend\n"])]
    return (b"".join(word.encode() + b"\0" for word in words), b"".join(contents), list(map(len, contents))), b""


def try_guarded(seconds):
    last, count, first = time.monotonic() + seconds, 0, number_of("commit")
    ways = [Guarded(True), Guarded(False)]
    for name, words, lines in COMMANDS:
        blocks, given = check.blocks_of(os.path.join(check.EXAMPLES, name), words), lines_of(lines)
        for calls in ways:
            try_run(calls, words, blocks, given)
            if words[0] == "session":
                try_session(calls, words, blocks, given)
            count += 1
    for number in range(first, first + 100000):
        if time.monotonic() > last:
            break
        for calls in ways:
            try_run(calls, number, *random_run(number))
            blocks, given = stays.random_session(number)
            try_run(calls, number, blocks, given)
            try_session(calls, number, blocks, given)
        count += 4
    print(count, "calls and sessions over blocks that end where the memory ends, from case", first, "on: no byte beyond them is touched")


def held():
    with open("/proc/self/statm") as file:
        return int(file.read().split()[1]) * PAGE


def try_ends():
    """Sessions begun and ended again and again."""
    name, words, lines = next(it for it in COMMANDS if it[1][0] == "session")
    blocks, stay, counts = check.blocks_of(os.path.join(check.EXAMPLES, name), words), stays.Stay(), []
    for count in (500, 4000):
        for _ in range(count):
            check.agree("begin", stay.begin(*blocks, 0)[0], library.DONE)
            stay.line(lines[0].encode(), 64)
            stay.end()
        counts.append(held())
    if counts[1] > counts[0] + (1 << 20):
        check.fail("behind 4,000 more sessions that were ended the process holds", counts[1] - counts[0], "bytes more")
    print("4,500 sessions are begun and ended, and nothing of them is held")


def try_all(seconds):
    # So a call that touches what it may not says where it was made.
    faulthandler.enable()
    try_ends()
    try_guarded(seconds)
