#!/usr/bin/env python3
"""What to buy if dear candidates are left out: for ten limits of the price of one, in even steps up to the dearest.

Usage: budgets.py NODES SWITCHES BRANCHES METERS CANDIDATES, five tables in CSV. It prints a table with tabs: the limit, how many candidates
it leaves, and the cost and the number of the cheapest that complete the meters; or at least how many pairs are missing, whatever is
bought of them. The folder `python` of obs must be on Python's path (PYTHONPATH).
"""
import csv
import sys

import obs

STEPS = 10


def main(nodes, switches, branches, meters, candidates):
    case = obs.tables(nodes, switches, branches, meters)
    needed = obs.report(case).counts.needed
    with open(candidates, encoding="utf-8-sig", errors="surrogateescape", newline="") as file:
        offered = list(csv.DictReader(file))
    # Of the whole table obs says what is wrong with it; a price is a whole number then.
    obs.place(case, candidates)
    dearest = max((int(row["price"]) for row in offered), default=0)
    print("price up to", "candidates", "cost", "bought", "missing", sep="\t")
    for limit in (dearest * step // STEPS for step in range(1, STEPS + 1)):
        left = [row for row in offered if int(row["price"]) <= limit]
        answer = obs.place(case, left)
        if isinstance(answer, obs.Plan):
            print(limit, len(left), answer.cost, len(answer.chosen), 0, sep="\t")
        else:
            print(limit, len(left), "", "", needed - answer.rank - answer.outside, sep="\t")


if __name__ == "__main__":
    if len(sys.argv) != 6:
        sys.exit(__doc__.split("\n\n")[1])
    try:
        main(*sys.argv[1:])
    except (obs.Error, OSError) as error:
        sys.exit(f"budgets.py: {error}")
