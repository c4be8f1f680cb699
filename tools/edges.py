#!/usr/bin/env python3
"""Compares what a program answers at the edges of its limits with what the definitions say.

Usage: tools/edges.py PROGRAM usual|large [whole]

PROGRAM is obs with `usual`, and obs_large with `large`. Each table, as CSV and in a CDF and a MATPOWER file, has once as many rows as the
limit allows, and once one row more; and files, and the lines of a session, once have one byte too many. No node has a source, so nothing is
needed, and a session without lines writes nothing and has status 0; what is beyond the limit is the fault that tools/model_reads.py finds.
With `large` it tries the table of nodes alone, which takes half a minute; with the word `whole` all, which takes some minutes and 3 GB of
disk.
"""
import os
import sys
import tempfile

import model_reads
from model import Case
from model_text import Text, line
from runs import Runs

HEADERS = {part: ",".join(columns) for part, columns in model_reads.COLUMNS.items()}
NOTHING = Case([], [], [], [], [])


def rows_of(part, count):
    """So many rows of a table, over a node `n0` and a branch `b0`."""
    form = {"nodes": "n%d,0", "switches": "s%d,n0,n0,1", "branches": "b%d,n0,n0,1", "meters": "m%d,flow,b0,1", "candidates": "c%d,zero,n0,1"}
    return "".join(form[part] % k + "\n" for k in range(count))


def tables_with(part, count):
    """Five tables, of which one has so many rows."""
    counts = {name: int(name in ("nodes", "branches")) for name in HEADERS} | {part: count}
    return {name: (HEADERS[name] + "\n" + rows_of(name, counts[name])).encode() for name in HEADERS}


def cdf_with(count):
    """A CDF file with so many branches between two buses."""
    buses = "".join(f"{k:4d} Bus {k:<12d} 1  1  0\n" for k in (1, 2))
    branches = "   1    2\n" * count
    return f"head\nBUS DATA FOLLOWS\n{buses}-999\nBRANCH DATA FOLLOWS\n{branches}-999\n".encode()


def matpower_with(buses, branches):
    """A MATPOWER file with so many buses and branches."""
    tail = " 0" * 8 + " 1;\n"
    return ("mpc.bus = [\n" + "".join(f"{k} 1;\n" for k in range(1, buses + 1)) + "];\nmpc.branch = [\n" + f"1 2{tail}" * branches + "];\n").encode()


def fault_of(read):
    """The line of the first fault, or no text, and the status."""
    try:
        read()
    except model_reads.Fault as fault:
        return str(fault), 3
    return "", 0


class Edges:
    """A program and its limits."""

    def __init__(self, runs, most_rows, most_bytes):
        self.runs, self.most_rows, self.most_bytes, self.number = runs, most_rows, most_bytes, 0

    def compare(self, what, words, wanted, given=b""):
        self.number += 1
        self.runs.compare(self.number, what, words, *wanted, given)

    def tables(self, part):
        words = ["session", "tables", "nodes", "switches", "branches", "meters", "with", "candidates"]
        for count in (self.most_rows, self.most_rows + 1):
            contents = tables_with(part, count)
            for name, content in contents.items():
                self.runs.write(name, content)
            records = [[row.split(b",") for row in content.split(b"\n")[:-1]] for content in contents.values()]
            self.compare(f"a table of {part}", words, fault_of(lambda some=records: model_reads.read_tables(some, self.most_rows)))

    def files(self, form, make):
        """A file of this form that `make` makes with so many rows."""
        read = model_reads.read_cdf if form == "cdf" else model_reads.read_matpower
        self.runs.write("meters", HEADERS["meters"].encode() + b"\n")
        for count in (self.most_rows, self.most_rows + 1):
            content = make(count)
            self.runs.write("case", content)
            self.compare(f"a file of {form}", ["session", form, "case", "meters"], fault_of(lambda it=content: read(it, self.most_rows)))

    def bytes(self, words, head):
        """A file with as many bytes as it may have, in lines that are blank behind the head, and with one more."""
        for too_many in (0, 1):
            self.runs.write(words[1], head + b"\n" * (self.most_bytes + too_many - len(head)))
            wanted = (line("fault", words[1], 0, 14, "TooLong"), 3) if too_many else (Text(NOTHING).topology(), 0)
            self.compare("a long file", words, wanted)

    def session(self):
        """Lines of a session with as many bytes as they may have, which are a remark, and with one more."""
        words = ["session", "tables", "nodes", "switches", "branches", "meters"]
        for name, content in tables_with("nodes", 1).items():
            self.runs.write(name, content)
        for too_many in (0, 1):
            self.compare("a long session", words, ("", 7 if too_many else 0), b"#" * (self.most_bytes + too_many))


def main():
    if len(sys.argv) < 3 or sys.argv[2] not in model_reads.LIMITS:
        sys.exit(__doc__)
    whole = sys.argv[2] == "usual" or sys.argv[3:] == ["whole"]
    with tempfile.TemporaryDirectory() as folder:
        edges = Edges(Runs(sys.argv[1], folder), *model_reads.LIMITS[sys.argv[2]])
        for part in HEADERS if whole else ["nodes"]:
            edges.tables(part)
        if whole:
            edges.files("matpower", lambda count: matpower_with(2, count))
            edges.files("matpower", lambda count: matpower_with(count, 1))
            edges.files("cdf", cdf_with)
            edges.bytes(["topology", "nodes", "switches"], HEADERS["nodes"].encode() + b"\n")
            edges.session()
        edges.runs.summary()
        print(f"{edges.number} answers at the limits of {os.path.basename(sys.argv[1])} are as the definitions say")


main()
