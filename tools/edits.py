#!/usr/bin/env python3
"""Makes sessions to measure the program with, over tables that tools/shapes.py made.

Usage: tools/edits.py TABLES FOLDER [doubled]

Writes into FOLDER the tables of TABLES with a second node for each bus behind a closed switch, to which every other branch goes. There
are to be at most 10,000 nodes. With the word doubled each of these switches has another one beside it, as where two paths lead through a
station, so that most edits of a switch leave the buses as they are. Meters and candidates stay as they are. Beside the tables it writes the lines of sessions: mixed.txt has
20,000 edits of switches, branches and meters with an ask at each 200th, meters.txt 20,000 edits of meters, branches.txt 20,000 of
branches, switches.txt 20,000 of switches, and comments.txt 16 MiB of comments. Few rows are out at once, as in a control room: an outage
is followed by others, and is ended after some. The lines are the same at each run.
"""
import csv
import os
import random
import sys

ASKS = ["status", "bound", "critical", "islands"]
WORDS = {"switch": ("open", "close"), "branch": ("trip", "restore"), "meter": ("lose", "regain")}


def rows(folder, name):
    with open(os.path.join(folder, name)) as file:
        return list(csv.reader(file))[1:]


def write(folder, name, lines):
    with open(os.path.join(folder, name), "w") as out:
        out.writelines(line + "\n" for line in lines)


def session(names, kinds, every):
    """20,000 edits of rows of these kinds, with an ask at each so many."""
    lines, out = [], []
    for k in range(20000):
        if every and k % every == every - 1:
            lines.append(ASKS[k // every % len(ASKS)])
        if len(out) > 20 or (out and random.random() < 0.5):
            kind, name = out.pop(random.randrange(len(out)))
            lines.append(f"{WORDS[kind][1]} {name}")
        else:
            kind = random.choice(kinds)
            name = random.choice(names[kind])
            out.append((kind, name))
            lines.append(f"{WORDS[kind][0]} {name}")
    return lines


def main():
    tables, folder = sys.argv[1], sys.argv[2]
    random.seed(2)
    os.makedirs(folder, exist_ok=True)
    nodes, branches, meters = rows(tables, "nodes.csv"), rows(tables, "branches.csv"), rows(tables, "meters.csv")
    head = ",".join(["node", "source", "absolute"][: len(nodes[0])])
    write(folder, "nodes.csv", [head] + [f"{','.join(row)}\n{row[0]}q{',0' * (len(row) - 1)}" for row in nodes])
    beside = [f"t{row[0]},{row[0]},{row[0]}q,1" for row in nodes if "doubled" in sys.argv[3:]]
    write(folder, "switches.csv", ["switch,from,to,closed"] + [f"s{row[0]},{row[0]},{row[0]}q,1" for row in nodes] + beside)
    far = [f"{e},{a}{'q' if k % 2 else ''},{b}{'q' if k % 3 else ''},{i}" for k, (e, a, b, i) in enumerate(branches)]
    write(folder, "branches.csv", ["branch,from,to,inservice"] + far)
    write(folder, "meters.csv", ["meter,kind,at,inservice"] + [",".join(row) for row in meters])
    write(folder, "candidates.csv", ["candidate,kind,at,price"] + [",".join(row) for row in rows(tables, "candidates.csv")])
    names = {"switch": [f"s{row[0]}" for row in nodes], "branch": [row[0] for row in branches], "meter": [row[0] for row in meters]}
    write(folder, "mixed.txt", session(names, ["switch", "branch", "meter"], 200))
    for kind, name in [("meter", "meters.txt"), ("branch", "branches.txt"), ("switch", "switches.txt")]:
        write(folder, name, session(names, [kind], 0))
    with open(os.path.join(folder, "comments.txt"), "w") as out:
        out.write(("#" * 63 + "\n") * (16777216 // 64))


main()
