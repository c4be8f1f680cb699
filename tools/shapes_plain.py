"""Shapes of networks that fill the tables: a grid, a chain, a mesh, stars and many small parts.

A shape has so many nodes, the sources among them, the ends of branches, the kinds and places of meters, and where it is worth it also
ends of closed switches, in the order of their rows, the kinds, places and prices of candidates, and the nodes that are marked absolute.
"""
import collections
import random

Shape = collections.namedtuple("Shape", "nodes sources branches meters switches offered absolute", defaults=((), None, ()))


def grid(side):
    """A square grid with a meter for each branch: a flow on it, or an injection at one of its two ends."""
    nodes = side * side
    branches = []
    for v in range(nodes):
        if v % side + 1 < side:
            branches.append((v, v + 1))
        if v + side < nodes:
            branches.append((v, v + side))
    meters = []
    for e, (a, b) in enumerate(branches):
        meters.append(random.choice([("flow", f"b{e}"), ("injection", f"n{a}"), ("injection", f"n{b}")]))
    return Shape(nodes, [0], branches, meters)


def chain(size):
    """A chain with an injection at each node."""
    return Shape(size, [0], [(v, v + 1) for v in range(size - 1)], [("injection", f"n{v}") for v in range(size)])


def mesh(size):
    """A random tree with as many further branches, and meters at random, half of them flows."""
    branches = [(random.randrange(v), v) for v in range(1, size)]
    while len(branches) < 2 * size:
        a, b = random.randrange(size), random.randrange(size)
        if a != b:
            branches.append((a, b))
    meters = []
    for _ in branches:
        if random.random() < 0.5:
            meters.append(("flow", f"b{random.randrange(len(branches))}"))
        else:
            meters.append(("injection", f"n{random.randrange(size)}"))
    return Shape(size, [0], branches, meters)


def wide(size):
    """A star of chains of three branches with a loop at each, flows on all branches but the loops' and injections at the ends."""
    branches, meters, nodes = [], [], 1
    while nodes + 3 <= size and len(branches) + 4 <= 20000:
        a = nodes
        branches += [(0, a), (a, a + 1), (a + 1, a + 2), (a, a + 2)]
        e = len(branches) - 4
        meters += [("flow", f"b{e}"), ("flow", f"b{e + 1}"), ("injection", f"n{a + 2}")]
        nodes += 3
    return Shape(nodes, [0], branches, meters)


def small(count):
    """So many components of three nodes, half of which fall short."""
    branches, meters = [], []
    for k in range(count):
        a = 3 * k
        branches += [(a, a + 1), (a + 1, a + 2)]
        meters.append(("flow", f"b{2 * k}"))
        if k % 2:
            meters.append(("flow", f"b{2 * k + 1}"))
    return Shape(3 * count, range(0, 3 * count, 3), branches, meters)


def hub(size):
    """A node with a branch to each other one, injections at the hub and flows on half of the branches."""
    meters = [("injection", "n0") for _ in range(size // 2)] + [("flow", f"b{e}") for e in range(size // 2)]
    return Shape(size, [0], [(0, v) for v in range(1, size)], meters)


def stations(count):
    """So many absolute components of three nodes, each second one with an angle meter, and an angle candidate at each node."""
    branches, meters = [], []
    for k in range(count):
        a = 3 * k
        branches += [(a, a + 1), (a + 1, a + 2)]
        meters += [("flow", f"b{2 * k}"), ("injection", f"n{a + 2}")] + ([("angle", f"n{a + 1}")] if k % 2 else [])
    offered = [("angle", f"n{v}", random.randint(1, 1000)) for v in range(3 * count)]
    return Shape(3 * count, range(0, 3 * count, 3), branches, meters, (), offered, range(0, 3 * count, 3))


def synchronised(side):
    """That grid with one mark, an angle meter at each tenth node and an angle candidate at each one."""
    plain = grid(side)
    meters = [("angle", f"n{v}") for v in range(0, plain.nodes, 10)] + plain.meters
    offered = [("angle", f"n{v}", random.randint(1, 1000)) for v in range(plain.nodes)]
    return plain._replace(meters=meters[:20000], offered=offered, absolute=[0])
