"""Shapes that were slow or wrong once. Most are short by one pair or few, so that a search looks at all there is, and fails.

All candidates are at one price where nothing else is said.
"""
import random

from shapes_plain import Shape


def injections(places):
    return [("injection", f"n{v}") for v in places]


def flows(places):
    return [("flow", f"b{e}") for e in places]


def at_one_price(items):
    return [(*item, 1) for item in items]


def along(size):
    """The branches of a path."""
    return [(v, v + 1) for v in range(size - 1)]


def with_injections(size, branches, places):
    """Injections alone, as meters at these places and as candidates at each node."""
    return Shape(size, [0], branches, injections(places), (), at_one_price(injections(range(size))))


def mixed(size, branches, places):
    """As with_injections, with nodes, branches and meters in an order at random."""
    names = random.sample(range(size), size)
    branches = [(names[a], names[b]) for a, b in random.sample(branches, len(branches))]
    places = [names[v] for v in places]
    return with_injections(size, branches, random.sample(places, len(places)))


def path(size):
    """A path with an injection at each node but its ends."""
    return with_injections(size, along(size), range(1, size - 1))


def shuffled(size):
    """That path with all rows in an order at random."""
    return mixed(size, along(size), range(1, size - 1))


def doubled(size):
    """A path of two branches between neighbours, in an order at random."""
    return mixed(size, along(size) * 2, range(1, size - 1))


def triangles(count):
    """A chain of so many triangles, in an order at random."""
    size, branches = 2 * count + 1, []
    for v in range(0, size - 2, 2):
        branches += [(v, v + 1), (v + 1, v + 2), (v, v + 2)]
    return mixed(size, branches, range(1, size - 1))


def twigs(size):
    """A long tree with short twigs."""
    return with_injections(size, [(random.randrange(max(0, v - 3), v), v) for v in range(1, size)], range(1, size - 1))


def snake(size):
    """A path laid in rows of a thousand nodes, of which the ends are joined last, by turns at the far and the near end."""
    branches = [(v, v + 1) for v in range(size - 1) if (v + 1) % 1000]
    turns = [(v - 1000, v) if v // 1000 % 2 == 0 else (v - 1, v + 999) for v in range(1000, size - 999, 1000)]
    return with_injections(size, branches + turns, range(1, size - 1))


def feeders(count):
    """Feeders of 990 nodes each from one source, with injections at all nodes but the source and the far ends."""
    size, branches = 990 * count + 1, []
    for first in range(1, size, 990):
        branches += [(0, first), *((v, v + 1) for v in range(first, first + 989))]
    return with_injections(size, branches, [v for v in range(1, size) if v % 990])


def ladder(count):
    """A ladder of so many rungs with its branches in reverse, and injections at one side in reverse and then at the other."""
    branches, size = [], 2 * count
    for v in range(0, size, 2):
        branches += [(v, v + 1), (v, v + 2), (v + 1, v + 3)] if v + 2 < size else [(v, v + 1)]
    return with_injections(size, branches[::-1], [*range(size - 2, 0, -2), *range(1, size, 2)])


def chords(size):
    """A path with a chord from its first node to each other one; injections first and the flows of the path last, prices that rise."""
    branches = along(size) + [(0, v) for v in range(2, size)]
    offered = [("flow", f"b{e}", 1 + e) for e in range(len(branches))]
    return Shape(size, [0], branches, injections(range(size)) + flows(range(size - 1)), (), offered)


def strewn(size):
    """A path with as many chords at random, injections and few flows, and candidates of all kinds, each dearer than the last."""
    branches = along(size) + [(random.randrange(size), random.randrange(size)) for _ in range(size)]
    meters = injections(range(1, size - 1)) + flows(random.randrange(len(branches)) for _ in range(size // 5))
    places = [random.choice([("flow", f"b{random.randrange(size)}"), ("injection", f"n{random.randrange(size)}")]) for _ in range(2 * size)]
    return Shape(size, [0], branches, meters, (), [(*place, 1 + k) for k, place in enumerate(places)])


def stars(count):
    """A path with as many chords from end to end, flows on all of these, and half as many stars whose injection must move."""
    branches, size, moved = along(count + 1) + [(0, count)] * count, count + 1, []
    for _ in range(count // 2):
        moved.append((len(branches), size))
        branches += [(0, size), (size, size + 1)]
        size += 2
    meters = flows(range(2 * count)) + injections(v for _, v in moved) + flows(e for e, _ in moved)
    return Shape(size, [0], branches, meters, (), at_one_price(flows(range(len(branches)))))


def gap(size):
    """A hub whose injections stand more than a thousand meters apart, and flows last."""
    meters = (injections([0]) + flows([size]) * 1001) * 9
    meters += flows(range(min(20000 - len(meters), size - 9)))
    branches = [(0, v + 1) for v in range(size)] + [(1, size + 1)]
    return Shape(size + 2, [0], branches, meters, (), [("flow", f"b{e}", 1 + e) for e in range(size)])


def parallel(count):
    """So many branches between two nodes, with a flow on each."""
    return Shape(2, [0], [(0, 1)] * count, flows(range(count)), (), at_one_price(flows(range(count))))


def complete(size):
    """Each node joined with each other one, and a hundred injections at each."""
    branches = [(a, b) for a in range(size) for b in range(a)]
    return Shape(size, [0], branches, injections(k % size for k in range(100 * size)), (), at_one_price(flows(range(len(branches)))))


def zigzag(size):
    """A chain of closed switches from the nodes at both ends of the table to its middle, in reverse."""
    places = [k // 2 if k % 2 == 0 else size - 1 - k // 2 for k in range(size)]
    return Shape(size, [0], [], [], list(zip(places, places[1:]))[::-1])


def tangle(size):
    """A chain of closed switches through all nodes in an order at random, the switches at random too."""
    places = random.sample(range(size), size)
    return Shape(size, [0], [], [], random.sample(list(zip(places, places[1:])), size - 1))


def lone(size):
    """So many nodes alone, each with a source, and an injection at each, which touches nothing."""
    return Shape(size, range(size), [], injections(range(size)), (), at_one_price(injections(range(size))))


def lone_angles(size):
    """So many absolute nodes alone, each with a source, an angle meter and an angle candidate."""
    angles = [("angle", f"n{v}") for v in range(size)]
    return Shape(size, range(size), [], angles, (), at_one_price(angles), range(size))


def phasors(count):
    """An absolute hub with a path: at the hub so many injections and as many angle meters, and candidates of both kinds."""
    branches = [(0, v) for v in range(1, count)] + [(v, v + 1) for v in range(count, 2 * count - 1)] + [(1, count)]
    here = injections([0]) * count + [("angle", "n0")] * count
    return Shape(2 * count, [0], branches, here, (), at_one_price(here), [2 * count - 1])
