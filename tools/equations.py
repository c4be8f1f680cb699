#!/usr/bin/env python3
"""Compares the rank of random networks, as the definitions say it, with that of the equations that an estimator has. No program is run.

Usage: tools/equations.py [FIRST [COUNT]]

Unknown is an angle at each vertex, also at the reference vertices. A flow tells the difference over its branch times a value of it, an
injection or a zero the sum of these at its bus, and an angle meter the difference to the reference. The values are taken at random, and
counted modulo a prime of 61 bits, so that equations which depend on each other for some values alone hardly come up. It tries COUNT (500)
networks from the number FIRST (0) on, small ones and such of middle size by turns, of which no bus has two rows of injection or zero.
"""
import collections
import random
import sys

from cases import random_case
from middle import random_middle
from model_middle import Middle

PRIME = 2**61 - 1


def equation_of(network, m, values):
    """The coefficients of a live meter's equation, by vertices."""
    found = collections.Counter()
    for e in network.touches[m]:
        a, b = network.ends[e]
        kind, at = network.case.meters[m][1:3]
        start, end = (b, a) if kind in ("injection", "zero") and network.bus[at] == b else (a, b)
        found[start] += values[e]
        found[end] -= values[e]
    return {v: x % PRIME for v, x in found.items() if x % PRIME}


def rank_of(rows):
    """How many of the rows depend on no others, by elimination."""
    rows, rank = [row for row in rows if row], 0
    while rows:
        row = rows.pop()
        rank += 1
        pivot, value = next(iter(row.items()))
        inverse, others = pow(value, PRIME - 2, PRIME), []
        for other in rows:
            factor = other.get(pivot, 0) * inverse
            both = {v: (other.get(v, 0) - factor * row.get(v, 0)) % PRIME for v in {**row, **other}} if factor else other
            others.append({v: x for v, x in both.items() if x})
        rows = [other for other in others if other]
    return rank


def has_one_injection(network):
    """Whether no bus has two live rows of injection or zero."""
    rows = [network.case.meters[m] for m in network.meters]
    places = [network.bus[row[2]] for row in rows if row[1] in ("injection", "zero")]
    return len(places) == len(set(places))


def main():
    first, count = (int(word) for word in (sys.argv[1:] + ["0", "500"][len(sys.argv) - 1 :]))
    number, seen = first, collections.Counter()
    while seen["networks"] < count:
        r = random.Random(number)
        network = Middle(random_middle(r) if number % 2 else random_case(r))
        number += 1
        if not network.meters or not has_one_injection(network):
            continue
        values = {e: r.randrange(1, PRIME) for e in network.ends}
        rank, wanted = rank_of([equation_of(network, m, values) for m in network.meters]), network.rho(network.meters)
        if rank != wanted:
            sys.exit(f"case {number - 1}: the equations have rank {rank}, the assignments {wanted}")
        seen.update(["networks", *["with a live angle meter"] * any(map(network.case.is_angle, network.meters))])
        seen["short"] += wanted < network.needed
    print(", ".join(f"{times} {what}" for what, times in seen.items()))


main()
