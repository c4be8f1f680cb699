#!/usr/bin/env python3
"""Runs one session of very many edits over full tables, and holds it against fresh runs over the edited tables.

Usage: tools/soak.py PROGRAM FOLDER [EDITS [SECONDS [SEED]]]

FOLDER has nodes.csv, switches.csv, branches.csv, meters.csv and candidates.csv, as tools/edits.py makes them; `stations` and
`synchronised` of tools/shapes.py are shapes with angle meters. A session is given EDITS (1,000,000) edits as long as SECONDS aren't over
and the lines stay below the bytes that a session takes: of a hundred 90 of meters and 5 each of branches and switches, with few rows out
at once, and an ask after about each thousandth. At each 50,000th edit and at the end all asks are held against a fresh session and a
fresh report, and the memory of the session is read. It stops at the first that differs, and fails where the session took memory after
it had begun. It needs the folder /proc.
"""
import os
import random
import resource
import subprocess
import sys
import tempfile
import time

from relations import WORDS, Tables, lines_of
from runs import KEPT, Runs

MOST_BYTES = 16777216
RESERVE = 1000
BATCH = 500
CHECK_EACH = 50000
ASKS = ["status", "tree", "bound", "islands", "critical", "cert", "report"]
WEIGHTS = {"switches": 5, "branches": 5, "meters": 90}


class Editor:
    """Makes edits at random and keeps the tables as they are after them."""

    def __init__(self, tables, r):
        self.tables, self.r, self.out = tables, r, []
        self.parts = [part for part in WEIGHTS if tables.rows[part]]

    def line(self):
        """The next edit: a row goes out, or one that is out comes back."""
        r = self.r
        if len(self.out) > 40 or (self.out and r.random() < 0.5):
            part, k = self.out.pop(r.randrange(len(self.out)))
        else:
            part = r.choices(self.parts, [WEIGHTS[part] for part in self.parts])[0]
            k = r.randrange(len(self.tables.rows[part]))
            self.out.append((part, k))
        row = self.tables.rows[part][k]
        row[-1] = "1" if row[-1] == "0" else "0"
        return f"{WORDS[part][int(row[-1])]} {row[0]}"


class Session:
    """A session of the program that is written to and read from. All lines are kept in a file."""

    def __init__(self, runs, words):
        self.process = subprocess.Popen([runs.program, *words], cwd=runs.folder, stdin=subprocess.PIPE, stdout=subprocess.PIPE)
        self.kept = open(os.path.join(runs.folder, "lines.txt"), "wb")
        self.bytes = 0

    def send(self, lines):
        """Writes lines, fewer than a pipe holds, and gives what answers each: nothing where the session ended."""
        content = lines_of(lines)
        self.bytes += len(content)
        self.kept.write(content)
        self.kept.flush()
        try:
            self.process.stdin.write(content)
            self.process.stdin.flush()
        except BrokenPipeError:
            pass
        return [self.answer(" " not in line) for line in lines]

    def answer(self, is_ask):
        """One line, or all up to the line `end`."""
        lines = [self.process.stdout.readline()]
        while is_ask and lines[-1] not in (b"end\n", b""):
            lines.append(self.process.stdout.readline())
        return b"".join(lines)

    def memory(self):
        """The kilobytes of data that it has taken, and that were resident at the peak."""
        with open(f"/proc/{self.process.pid}/status", encoding="utf-8") as file:
            found = dict(line.split(":", 1) for line in file if line.startswith("Vm"))
        return [int(found[name].split()[0]) for name in ("VmData", "VmHWM")]

    def end(self):
        self.process.stdin.close()
        self.kept.close()
        return self.process.stdout.read(), self.process.wait()


def check(runs, session, tables, edits):
    """All asks now, and those of a fresh session over the tables as they are."""
    asks = [*ASKS, "place"]
    found = session.send(asks)
    form, offered = tables.write(runs, "now-")
    words = ["session", *form, "with", offered]
    fresh, status = runs.run(words, lines_of(asks))
    runs.alike(edits, "checkpoints", words, b"", (b"".join(found), status), (fresh, status))
    report = runs.run(["report", *form])
    runs.alike(edits, "reports at checkpoints", words, b"", (found[ASKS.index("report")], status), report)
    taken, peak = session.memory()
    print(f"{edits} edits, {session.bytes} bytes: alike, {taken} kB of data, {peak} kB resident at the peak", flush=True)
    return status, taken


def soak(runs, tables, most, seconds, r):
    """Runs the session, and says how many edits and asks there were."""
    form, offered = tables.write(runs)
    session, editor = Session(runs, ["session", *form, "with", offered]), Editor(tables, r)
    edits, asks, last = 0, 0, time.monotonic() + seconds
    status, at_first = check(runs, session, tables, edits)
    while edits < most and time.monotonic() < last and session.bytes < MOST_BYTES - RESERVE - 40 * BATCH:
        lines = [editor.line() for _ in range(min(BATCH, most - edits))]
        edits += len(lines)
        if r.random() < BATCH / 1000:
            lines.insert(r.randrange(len(lines)), r.choice(ASKS))
            asks += 1
        for line, answer in zip(lines, session.send(lines)):
            if " " in line and not answer.startswith(b"ok\t"):
                runs.differs(edits, [line], b"", (answer, None), (b"ok", None))
        if edits % CHECK_EACH == 0:
            check(runs, session, tables, edits)
    status, at_last = check(runs, session, tables, edits)
    rest, ended = session.end()
    runs.alike(edits, "ends", ["session"], b"", (rest, ended), (b"", status))
    print(f"{edits} edits and {asks} asks at random, {session.bytes / (edits + asks):.1f} bytes a line")
    if at_last > at_first:
        sys.exit(f"the session took more memory: {at_first} kB at first, {at_last} kB at last")


def main():
    program, folder, most, seconds, seed = sys.argv[1:3] + (sys.argv[3:] + ["1000000", "inf", "0"][len(sys.argv) - 3 :])
    with tempfile.TemporaryDirectory() as scratch:
        runs = Runs(program, scratch, KEPT)
        soak(runs, Tables.of_folder(folder), int(most), float(seconds), random.Random(int(seed)))
    runs.summary()
    print(f"user time of all runs together: {resource.getrusage(resource.RUSAGE_CHILDREN).ru_utime:.0f} s")


if __name__ == "__main__":
    main()
