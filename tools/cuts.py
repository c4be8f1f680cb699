#!/usr/bin/env python3
"""Runs the program over files of the examples that are cut or spoilt, and sees that each run is answered as the pages say.

Usage: tools/cuts.py PROGRAM [MOST]

Each file of each command below is cut at every byte, and each byte of a file of at most MOST bytes (3000) is exchanged for a tab, a
quote, a line feed, a zero and 0xFF, one at a time. A run is to end with 0 or 1 and a whole answer, or with 3 and one fault line that
names a part of this command. It says how many runs there were of each status, and each run that ends otherwise.
"""
import collections
import os
import re
import subprocess
import sys
import tempfile

from model_studies import STUDIES
from model_text import SUMMARY

TABLES = ["nodes.csv", "switches.csv", "branches.csv", "meters.csv"]
COMMANDS = [
    ("substation", ["topology", "nodes.csv", "switches.csv"], ""),
    ("own", ["report", "tables", *TABLES], ""),
    ("own", ["place", "tables", *TABLES, "candidates.csv"], ""),
    ("short", ["session", "tables", *TABLES, "with", "candidates.csv"], "cert\nplace\n"),
    ("short", ["verify", "tables", *TABLES, "with", "candidates.csv", "plan.txt"], ""),
    ("ieee14", ["verify", "cdf", "case.cdf", "meters.csv", "trees.txt"], ""),
    ("ieee14", ["report", "tables", *TABLES], ""),
    ("case9", ["report", "matpower", "case.m", "meters.csv"], ""),
    ("angles", ["place", "tables", *TABLES, "candidates.csv"], ""),
    *(("studies", [study, "tables", *TABLES], "") for study in STUDIES),
]
FAULT = re.compile(rb"fault\t(nodes|switches|branches|meters|candidates|cdf|matpower|certificate)\t\d+\t\d+\t[A-Za-z]+\n")
WHOLE = re.compile(rb"(.*\n)?end\n|valid\t\d+\n|flaw\t\d+\t\d+\t[A-Za-z]+\n", re.DOTALL)
SPOILT = [b"\t", b'"', b"\n", b"\0", b"\xff"]


def texts(content, most):
    for at in range(len(content)):
        yield f"cut at {at}", content[:at]
    if len(content) <= most:
        for at in range(len(content)):
            for byte in SPOILT:
                yield f"{byte!r} at {at}", content[:at] + byte + content[at + 1 :]


def main():
    program = os.path.abspath(sys.argv[1])
    most = int(sys.argv[2]) if len(sys.argv) > 2 else 3000
    examples = os.path.join(os.path.dirname(os.path.abspath(__file__)), "..", "examples")
    count, odd = collections.Counter(), 0
    with tempfile.TemporaryDirectory() as scratch:
        for folder, words, lines in COMMANDS:
            files = [i for i, word in enumerate(words) if "." in word]
            whole = [os.path.join(examples, folder, word) if "." in word else word for word in words]
            for i in files:
                with open(whole[i], "rb") as file:
                    content = file.read()
                spoilt = os.path.join(scratch, "file")
                for what, text in texts(content, most):
                    with open(spoilt, "wb") as file:
                        file.write(text)
                    run = subprocess.run([program, *whole[:i], spoilt, *whole[i + 1 :]], input=lines.encode(), capture_output=True)
                    status, out = run.returncode, run.stdout
                    good = FAULT.fullmatch(out) if status == 3 else status in (0, 1) and WHOLE.fullmatch(out) and SUMMARY.fullmatch(run.stderr)
                    count[words[0], status] += 1
                    if not good:
                        odd += 1
                        print(f"{folder} {' '.join(words)}: {words[i]} {what}: status {status}, {out[:80]!r}, {run.stderr[:80]!r}")
    for (command, status), runs in sorted(count.items()):
        print(f"{command}: status {status} {runs} times")
    print(f"{sum(count.values())} runs, {odd} odd")
    sys.exit(odd > 0)


main()
