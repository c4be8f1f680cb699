#!/usr/bin/env python3
"""Makes full tables to measure the program with.

Usage: tools/shapes.py SHAPE FOLDER [SIZE]

Writes nodes.csv, with the column `absolute` where a node is marked, switches.csv, branches.csv and meters.csv into FOLDER; few.csv,
which has each tenth of the meters; candidates.csv, for most shapes with a candidate for each branch, a flow on it or an injection at an
end, at prices from 1 to 1000; and, where there are no switches and no marks, the same network as a MATPOWER case, case.m, with its
meters in case-meters.csv. SHAPE is one of the names below; what each is stands in shapes_plain.py and shapes_worst.py. The tables are
the same at each run. The greatest size is the one that fills the tables, and it is taken where none is given.
"""
import os
import random
import sys

import shapes_plain as plain
import shapes_worst as worst

SHAPES = {
    "grid": (plain.grid, 100),
    "chain": (plain.chain, 20000),
    "mesh": (plain.mesh, 10000),
    "wide": (plain.wide, 15000),
    "small": (plain.small, 6600),
    "hub": (plain.hub, 20000),
    "path": (worst.path, 20000),
    "shuffled": (worst.shuffled, 20000),
    "doubled": (worst.doubled, 10000),
    "triangles": (worst.triangles, 6600),
    "twigs": (worst.twigs, 20000),
    "snake": (worst.snake, 20000),
    "feeders": (worst.feeders, 20),
    "ladder": (worst.ladder, 6600),
    "chords": (worst.chords, 10000),
    "strewn": (worst.strewn, 10000),
    "stars": (worst.stars, 6600),
    "gap": (worst.gap, 10000),
    "parallel": (worst.parallel, 20000),
    "complete": (worst.complete, 200),
    "zigzag": (worst.zigzag, 20000),
    "tangle": (worst.tangle, 20000),
    "lone": (worst.lone, 20000),
    "stations": (plain.stations, 6600),
    "synchronised": (plain.synchronised, 100),
    "angles": (worst.lone_angles, 20000),
    "phasors": (worst.phasors, 10000),
}


def table(folder, name, header, rows):
    with open(os.path.join(folder, name), "w", encoding="utf-8") as out:
        out.write(header + "\n")
        out.writelines(",".join(map(str, row)) + "\n" for row in rows)


def write_nodes(folder, shape):
    sources, absolute = set(shape.sources), set(shape.absolute)
    rows = [(f"n{v}", int(v in sources), int(v in absolute)) for v in range(shape.nodes)]
    count = 3 if absolute else 2
    table(folder, "nodes.csv", ",".join(["node", "source", "absolute"][:count]), (row[:count] for row in rows))


def write_meters(folder, name, meters):
    table(folder, name, "meter,kind,at,inservice", ((f"m{m}", kind, at, 1) for m, (kind, at) in meters))


def write_matpower(folder, shape):
    """Buses are numbered from 1, and have thirteen columns as published cases do."""
    sources = set(shape.sources)
    with open(os.path.join(folder, "case.m"), "w", encoding="utf-8") as out:
        out.write("function mpc = case\nmpc.version = '2';\nmpc.bus = [\n")
        out.writelines(f"\t{v + 1}\t{3 if v in sources else 1}" + "\t0" * 11 + ";\n" for v in range(shape.nodes))
        out.write("];\nmpc.branch = [\n")
        out.writelines(f"\t{a + 1}\t{b + 1}" + "\t0" * 8 + "\t1\t-360\t360;\n" for a, b in shape.branches)
        out.write("];\n")
    renamed = [(kind, ("L" if kind == "flow" else "") + str(int(at[1:]) + 1)) for kind, at in shape.meters]
    write_meters(folder, "case-meters.csv", enumerate(renamed))


def offered_at_random(branches):
    offered = []
    for e, (a, b) in enumerate(branches):
        offered.append(random.choice([("flow", f"b{e}"), ("injection", f"n{a}"), ("injection", f"n{b}")]) + (random.randint(1, 1000),))
    return offered


def write(name, folder, size=None):
    """Writes the tables of a shape into a folder."""
    make, full = SHAPES[name]
    random.seed(1)
    shape = make(size or full)
    offered = offered_at_random(shape.branches) if shape.offered is None else shape.offered
    os.makedirs(folder, exist_ok=True)
    write_nodes(folder, shape)
    table(folder, "switches.csv", "switch,from,to,closed", ((f"s{k}", f"n{a}", f"n{b}", 1) for k, (a, b) in enumerate(shape.switches)))
    table(folder, "branches.csv", "branch,from,to,inservice", ((f"b{e}", f"n{a}", f"n{b}", 1) for e, (a, b) in enumerate(shape.branches)))
    write_meters(folder, "meters.csv", enumerate(shape.meters))
    write_meters(folder, "few.csv", list(enumerate(shape.meters))[::10])
    table(folder, "candidates.csv", "candidate,kind,at,price", ((f"c{k}", *row) for k, row in enumerate(offered)))
    if not shape.switches and not shape.absolute:
        write_matpower(folder, shape)


def main():
    if len(sys.argv) not in (3, 4) or sys.argv[1] not in SHAPES:
        sys.exit(f"usage: tools/shapes.py SHAPE FOLDER [SIZE], where SHAPE is one of {' '.join(SHAPES)}")
    write(sys.argv[1], sys.argv[2], int(sys.argv[3]) if len(sys.argv) > 3 else None)


if __name__ == "__main__":
    main()
