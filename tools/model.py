"""What the program is to answer to a small case, from the definitions alone.

It shares nothing with the program: buses, components and islands are sets that are closed under joining, and every assignment, every
set of vertices and every set of candidates is tried. Cases of up to about eight branches and a dozen items take milliseconds.
"""
import functools
import itertools


class Case:
    """Rows of five tables; ends and places are positions.

    nodes: (name, is a source, is marked absolute); switches and branches: [name, from, to, closed or in service];
    meters: [name, kind, at, in service]; candidates: [name, kind, at, price].
    """

    def __init__(self, nodes, switches, branches, meters, candidates):
        self.nodes = nodes
        self.switches = switches
        self.branches = branches
        self.meters = meters
        self.candidates = candidates

    def is_angle(self, item):
        return [*self.meters, *self.candidates][item][1] == "angle"


def firsts(count, links):
    """For each of so many things the first one that it is joined with."""
    joined = [{i} for i in range(count)]
    changed = True
    while changed:
        changed = False
        for a, b in links:
            both = joined[a] | joined[b]
            for i in both:
                if joined[i] != both:
                    joined[i] = both
                    changed = True
    return [min(others) for others in joined]


class Network:
    """The network of a case, and what can be assigned there.

    A vertex is a bus, by its number, or behind the buses the reference vertex of a component. A branch is a row of the branch table, or
    behind the rows the angle branch of an item. A component is named by its first bus.
    """

    def __init__(self, case):
        self.case = case
        of_nodes = firsts(len(case.nodes), [(row[1], row[2]) for row in case.switches if row[3]])
        self.names = sorted(set(of_nodes))
        self.bus = [self.names.index(first) for first in of_nodes]
        self.rows = {}
        for e, row in enumerate(case.branches):
            if row[3] and self.bus[row[1]] != self.bus[row[2]]:
                self.rows[e] = (self.bus[row[1]], self.bus[row[2]])
        self.component = firsts(len(self.names), list(self.rows.values()))
        parts = sorted(set(self.component))
        self.reference = {c: len(self.names) + k for k, c in enumerate(parts)}
        self.vertices = len(self.names) + len(parts)
        marked = lambda k: {self.component[self.bus[i]] for i, row in enumerate(case.nodes) if row[k]}
        self.energised, self.absolute = sorted(marked(1)), marked(2)
        self.need = {c: self.component.count(c) - (c not in self.absolute) for c in self.energised}
        self.needed = sum(self.need.values())
        self.live_branches = [e for e in self.rows if self.component[self.rows[e][0]] in self.energised]
        items = [tuple(row) for row in case.meters] + [(*row[:3], True) for row in case.candidates]
        self.angles = {}
        for m, (_, kind, at, _) in enumerate(items):
            c = self.component[self.bus[at]] if kind == "angle" else None
            if c in self.energised and c in self.absolute:
                self.angles[len(case.branches) + m] = (self.bus[at], self.reference[c])
        self.ends = {**self.rows, **self.angles}
        self.touches = [self.touch(m, *row[1:]) for m, row in enumerate(items)]
        self.meters = [m for m in range(len(case.meters)) if self.touches[m]]
        self.candidates = [m for m in range(len(case.meters), len(items)) if self.touches[m]]
        self.kept, self.ranks = {}, {}

    def touch(self, item, kind, at, inservice):
        if not inservice:
            return []
        if kind == "angle":
            return [e for e in self.angles if e == len(self.case.branches) + item]
        if kind == "flow":
            return [e for e in self.live_branches if e == at]
        return [e for e in self.live_branches if self.bus[at] in self.ends[e]]

    def rank(self, branches):
        key = frozenset(branches)
        if key not in self.ranks:
            of = firsts(self.vertices, [self.ends[e] for e in key])
            self.ranks[key] = sum(1 for u in range(len(of)) if of[u] != u)
        return self.ranks[key]

    def forests(self, items):
        """The sets of branches that assignments of these items have."""
        key = tuple(sorted(items))
        if key not in self.kept:
            if not key:
                self.kept[key] = {frozenset()}
            else:
                found = set(self.forests(key[:-1]))
                for branches in list(found):
                    for e in self.touches[key[-1]]:
                        more = branches | {e}
                        if e not in branches and self.rank(more) == len(more):
                            found.add(more)
                self.kept[key] = found
        return self.kept[key]

    def rho(self, items):
        return max(len(branches) for branches in self.forests(items))

    def critical(self, items):
        return [m for m in items if self.rho([x for x in items if x != m]) < self.rho(items)]

    def partners(self, m, items):
        """The items that are critical together with one: neither is critical, and without both the greatest length falls."""
        critical = self.critical(items)
        redundant = [x for x in items if x not in critical]
        falls = lambda k: self.rho([x for x in items if x not in (m, k)]) < self.rho(items)
        return [k for k in redundant if m in redundant and k != m and falls(k)]

    def stations(self):
        """For each node the first one that switches join it with, whether they are open or closed."""
        return firsts(len(self.case.nodes), [(row[1], row[2]) for row in self.case.switches])

    def bound(self, inside, scope):
        touched = {e for m in inside for e in self.touches[m]}
        return self.rank(touched), len([m for m in scope if m not in inside])

    def first(self, items):
        """The first of the longest assignments: item by item a lower branch before a higher one, and a branch before none."""
        items = sorted(items)

        def choices(k, branches):
            for e in self.touches[items[k]]:
                more = branches | {e}
                if e not in branches and self.rank(more) == len(more):
                    yield e, more

        @functools.cache
        def most(k, branches):
            if k == len(items):
                return 0
            taken = [1 + most(k + 1, more) for _, more in choices(k, branches)]
            return max([most(k + 1, branches), *taken])

        pairs, branches = [], frozenset()
        for k, item in enumerate(items):
            for e, more in choices(k, branches):
                if 1 + most(k + 1, more) == most(k, branches):
                    pairs.append((item, e))
                    branches = more
                    break
        return pairs

    def component_of(self, item):
        """Each branch that it touches begins at a bus."""
        return self.component[self.ends[self.touches[item][0]][0]]

    def meters_of(self, c):
        return [m for m in self.meters if self.component_of(m) == c]

    def is_observable(self, c):
        return self.rho(self.meters_of(c)) == self.need[c]

    def all_observable(self):
        return all(self.is_observable(c) for c in self.energised)

    def islands(self):
        """For each bus the first vertex of the largest set around it that is spanned from inside, which is a bus."""
        spanned = []
        around = [sum(1 << v for v in {v for e in some for v in self.ends[e]}) for some in self.touches]
        for some in range(1, 1 << self.vertices):
            inside = [m for m in self.meters if around[m] & ~some == 0]
            if len(inside) >= some.bit_count() - 1 and self.rho(inside) >= some.bit_count() - 1:
                spanned.append(some)
        largest = [s for s in spanned if not any(s != other and s & ~other == 0 for other in spanned)]
        assert sum(some.bit_count() for some in largest) == self.vertices
        around_bus = [next(s for s in largest if s >> u & 1) for u in range(len(self.names))]
        return [(s & -s).bit_length() - 1 for s in around_bus]

    def price(self, item):
        return self.case.candidates[item - len(self.case.meters)][3]

    def chosen(self, order):
        """Candidates that raise the rank of the meters and all candidates before them."""
        least = lambda k: self.rho(self.meters + order[:k])
        return [m for k, m in enumerate(order) if least(k + 1) > least(k)]

    def try_cheaper(self, order, cost):
        for count in range(len(order) + 1):
            for some in itertools.combinations(order, count):
                if self.rho(self.meters + list(some)) == self.needed:
                    assert sum(map(self.price, some)) >= cost

    def cheapest(self):
        """The chosen candidates and the layers (from, to, list, rank, outside), or None where no set completes the meters."""
        every = self.meters + self.candidates
        if self.rho(every) < self.needed:
            return None
        order = sorted(self.candidates, key=lambda m: (self.price(m), m))
        chosen = self.chosen(order)
        cost = sum(map(self.price, chosen))
        self.try_cheaper(order, cost)
        layers, start = [], 0
        for end in sorted({self.price(m) for m in chosen} - {0}):
            scope = self.meters + [m for m in self.candidates if self.price(m) < end]
            inside = [m for m in scope if m not in self.critical(scope)]
            layers.append((start, end, inside, *self.bound(inside, scope)))
            start = end
        assert sum((self.needed - layer[3] - layer[4]) * (layer[1] - layer[0]) for layer in layers) == cost
        return sorted(chosen), layers
