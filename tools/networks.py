#!/usr/bin/env python3
"""Makes networks of any size, as operators' are, to measure the programs with.

Usage: tools/networks.py KIND NODES FOLDER

KIND is one of
    sparse    a random spanning tree of a square grid and further branches of the grid, 1.3 a node, rows in local order
    feeders   feeders of 2,000 nodes with short laterals, off substations in a ring
    nb        as sparse, with four nodes a bus and a ring of four switches there, three or four of them closed
    chain     one long chain

Writes nodes.csv (the first node is a source), switches.csv, branches.csv and candidates.csv (a flow on each branch, prices from 1 to 20)
into FOLDER, and four tables of meters:
    just.csv  so many that observe, and no more          short.csv  these without a tenth
    full.csv  these and half as many at random           red.csv    injections at 0.8 of the nodes, flows on 0.55 of the branches
The tables are the same at each run.
"""
import os
import random
import sys


def top_of(tops, x):
    while tops[x] != x:
        tops[x] = tops[tops[x]]
        x = tops[x]
    return x


def sparse(nodes):
    """Branches, and whether each is of the spanning tree."""
    side = 1
    while side * side < nodes:
        side += 1
    grid = []
    for v in range(nodes):
        if (v + 1) % side and v + 1 < nodes:
            grid.append((v, v + 1))
        if v + side < nodes:
            grid.append((v, v + side))
    random.Random(1).shuffle(grid)
    tops, tree, rest = list(range(nodes)), [], []
    for a, b in grid:
        x, y = top_of(tops, a), top_of(tops, b)
        if x != y:
            tops[x] = y
            tree.append((a, b))
        else:
            rest.append((a, b))
    further = rest[: max(0, int(1.3 * nodes) - len(tree))]
    rows = sorted([(branch, True) for branch in tree] + [(branch, False) for branch in further])
    return [branch for branch, _ in rows], [of_tree for _, of_tree in rows]


def feeders(nodes):
    branches, substations, v = [], [], 0
    while v < nodes:
        last = v
        substations.append(v)
        v += 1
        for i in range(min(1999, nodes - v)):
            branches.append((last, v))
            if i % 5 != 4:
                last = v
            v += 1
    of_tree = [True] * len(branches)
    for a, b in zip(substations, substations[1:]):
        branches.append((a, b))
        of_tree.append(True)
    if len(substations) > 2:
        branches.append((substations[-1], substations[0]))
        of_tree.append(False)
    return branches, of_tree


def chain(nodes):
    return [(v, v + 1) for v in range(nodes - 1)], [True] * (nodes - 1)


def just(branches, of_tree):
    """A meter for each branch of the tree: the flow, or an injection at an end that has none yet."""
    draw, used, meters = random.Random(2), set(), []
    for e, (a, b) in enumerate(branches):
        if of_tree[e]:
            kind, at = draw.choice([("flow", e)] + [("injection", v) for v in (a, b) if v not in used])
            if kind == "injection":
                used.add(at)
            meters.append((kind, at))
    draw.shuffle(meters)
    return meters


def further(draw, nodes, branches, at_nodes, on_branches):
    injections = [("injection", v) for v in range(nodes) if draw.random() < at_nodes]
    return injections + [("flow", e) for e in range(len(branches)) if draw.random() < on_branches]


def meters_of(nodes, branches, of_tree):
    own = just(branches, of_tree)
    draw = random.Random(7)
    full = own + further(draw, nodes, branches, 0.25, 0.2)
    draw.shuffle(full)
    draw = random.Random(4)
    short = [meter for meter in own if draw.random() >= 0.1]
    return {"just": own, "short": short, "full": full, "red": further(random.Random(3), nodes, branches, 0.8, 0.55)}


def table(folder, name, header, rows):
    with open(os.path.join(folder, name + ".csv"), "w", encoding="utf-8") as out:
        out.write(header + "\n")
        out.writelines(",".join(map(str, row)) + "\n" for row in rows)


def rings(buses):
    """A ring of four switches in each bus of four nodes."""
    draw = random.Random(5)
    return [
        (4 * v + i, 4 * v + (i + 1) % 4, int(i < 3 or draw.random() < 0.5)) for v in range(buses) for i in range(4)
    ]


def write(kind, nodes, folder):
    os.makedirs(folder, exist_ok=True)
    each = 4 if kind == "nb" else 1
    buses = nodes // each
    branches, of_tree = {"sparse": sparse, "nb": sparse, "feeders": feeders, "chain": chain}[kind](buses)
    draw = random.Random(8)

    def node(bus):
        return f"n{bus * each + (draw.randrange(each) if each > 1 else 0)}"

    table(folder, "nodes", "node,source", ((f"n{v}", int(v == 0)) for v in range(buses * each)))
    switches = rings(buses) if each > 1 else []
    table(folder, "switches", "switch,from,to,closed", ((f"s{k}", f"n{a}", f"n{b}", c) for k, (a, b, c) in enumerate(switches)))
    table(folder, "branches", "branch,from,to,inservice", ((f"b{e}", node(a), node(b), 1) for e, (a, b) in enumerate(branches)))
    for name, meters in meters_of(buses, branches, of_tree).items():
        rows = ((f"m{i}", k, f"b{at}" if k == "flow" else node(at), 1) for i, (k, at) in enumerate(meters))
        table(folder, name, "meter,kind,at,inservice", rows)
    prices = random.Random(6)
    table(folder, "candidates", "candidate,kind,at,price", ((f"c{e}", "flow", f"b{e}", prices.randint(1, 20)) for e in range(len(branches))))


def main():
    if len(sys.argv) != 4 or sys.argv[1] not in ("sparse", "feeders", "nb", "chain") or not sys.argv[2].isdigit():
        sys.exit(__doc__)
    write(sys.argv[1], int(sys.argv[2]), sys.argv[3])


if __name__ == "__main__":
    main()
