#!/usr/bin/env python3
"""Makes tables and certificates to measure `verify` with.

Usage: tools/claims.py SHAPE FOLDER [SIZE]

Writes nodes.csv, switches.csv, branches.csv, meters.csv, candidates.csv and claims.txt into FOLDER. All claims hold. SHAPE is one of
the names below. The greatest size is the one that fills the tables or the certificate, and it is taken where none is given.
"""
import os
import sys

MOST_BYTES = 16777216


def repeated(claim):
    """As many of one claim as a file has room for, and the line that ends it."""
    return claim * ((MOST_BYTES - 4) // len(claim)) + "end\n"


def alone(size):
    """So many buses alone, each with a source, and as many claims of one line as a file has room for."""
    return size, range(size), [], [], [], repeated("tree\tn0\n")


def tree(size):
    """A chain with a flow meter on each branch, and one claim of all pairs."""
    branches = [(v, v + 1) for v in range(size - 1)]
    pairs = "".join(f"pair\tmeter\tm{e}\tb{e}\n" for e in range(size - 1))
    return size, [0], branches, [("flow", f"b{e}") for e in range(size - 1)], [], "tree\tn0\n" + pairs + "end\n"


def layers(size):
    """A chain without meters, and a candidate for each branch, each dearer by one than the last: a layer for each."""
    branches = [(v, v + 1) for v in range(size - 1)]
    count = len(branches)
    offered = [("flow", f"b{e}", e + 1) for e in range(count)]
    lines = [f"cost\t{count * (count + 1) // 2}\n"]
    lines += [f"chosen\tc{e}\n" for e in range(count)]
    lines += [f"pair\tcandidate\tc{e}\tb{e}\n" for e in range(count)]
    for e in range(count):
        lines.append(f"layer\t{e}\t{e + 1}\t{e}\t0\n")
        if e > 0:
            lines.append(f"inside\tcandidate\tc{e - 1}\n")
    return size, [0], branches, [], offered, "".join(lines) + "end\n"


def hub(size):
    """A hub with an injection meter, and a node behind a leaf that nothing measures: as many bounds that list the meter as fit in."""
    branches = [(0, v) for v in range(1, size - 1)] + [(1, size - 1)]
    claim = f"bound\tn0\t{size - 2}\t0\ninside\tmeter\tm0\n"
    return size, [0], branches, [("injection", "n0")], [], repeated(claim)


def beside(size):
    """A hub with an injection meter, and two nodes behind a leaf, to one of which a flow is measured: as many bounds that list both meters as
    fit in."""
    branches = [(0, v) for v in range(1, size - 2)] + [(1, size - 2), (1, size - 1)]
    claim = f"bound\tn0\t{size - 2}\t0\ninside\tmeter\tm0\ninside\tmeter\tm1\n"
    return size, [0], branches, [("injection", "n0"), ("flow", f"b{size - 3}")], [], repeated(claim)


def turns(size):
    """Two hubs with an injection meter each, and a flow that is measured between them: bounds that list the flow and one injection, and then
    the other, as many as fit in."""
    half = size // 2
    branches = [(0, v) for v in range(2, half)] + [(1, v) for v in range(half, size)] + [(0, 1)]
    meters = [("injection", "n0"), ("injection", "n1"), ("flow", f"b{size - 2}")]
    claim = "".join(f"bound\tn0\t{rank}\t1\ninside\tmeter\tm{m}\ninside\tmeter\tm2\n" for m, rank in ((0, half - 1), (1, size - half + 1)))
    return size, [0], branches, meters, [], repeated(claim)


def listed(size):
    """A hub with as many injection meters as a table has, and two nodes behind a leaf: as many bounds that list all meters as fit in."""
    branches = [(0, v) for v in range(1, size - 2)] + [(1, size - 2), (1, size - 1)]
    meters = [("injection", "n0")] * (size - 1)
    claim = f"bound\tn0\t{size - 3}\t0\n" + "".join(f"inside\tmeter\tm{m}\n" for m in range(len(meters)))
    return size, [0], branches, meters, [], repeated(claim)


def angles(size):
    """So many absolute buses alone, each with a source and an angle meter, and a claim of one pair for each."""
    meters = [("angle", f"n{v}") for v in range(size)]
    claims = "".join(f"tree\tn{v}\npair\tmeter\tm{v}\tangle\n" for v in range(size))
    return size, range(size), [], meters, [], claims + "end\n"


SHAPES = {name: (make, 20000) for name, make in [
    ("alone", alone), ("angles", angles), ("tree", tree), ("layers", layers), ("hub", hub), ("listed", listed), ("beside", beside), ("turns", turns)]}


def table(folder, name, header, rows):
    with open(os.path.join(folder, name), "w") as out:
        out.write(header + "\n")
        out.writelines(row + "\n" for row in rows)


def main():
    shape, folder = sys.argv[1], sys.argv[2]
    make, full = SHAPES[shape]
    nodes, sources, branches, meters, offered, claims = make(int(sys.argv[3]) if len(sys.argv) > 3 else full)
    sources, is_absolute = set(sources), any(kind == "angle" for kind, _ in meters)
    os.makedirs(folder, exist_ok=True)
    head, mark = ("node,source,absolute", ",1") if is_absolute else ("node,source", "")
    table(folder, "nodes.csv", head, (f"n{v},{int(v in sources)}{mark}" for v in range(nodes)))
    table(folder, "switches.csv", "switch,from,to,closed", [])
    table(folder, "branches.csv", "branch,from,to,inservice", (f"b{e},n{a},n{b},1" for e, (a, b) in enumerate(branches)))
    table(folder, "meters.csv", "meter,kind,at,inservice", (f"m{m},{kind},{at},1" for m, (kind, at) in enumerate(meters)))
    table(folder, "candidates.csv", "candidate,kind,at,price", (f"c{k},{kind},{at},{price}" for k, (kind, at, price) in enumerate(offered)))
    with open(os.path.join(folder, "claims.txt"), "w") as out:
        out.write(claims)


main()
