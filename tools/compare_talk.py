#!/usr/bin/env python3
"""Compares what tools/talk says in random sessions over random small cases with what the definitions say.

Usage: tools/compare_talk.py PROGRAM [FIRST [COUNT]]

Each number from FIRST (0) on makes one case and a session of twelve lines, for COUNT (100) cases. Of each edit it is seen that buses are said
to go dead, or to be fed again, exactly where some do; that islands are said to fall apart exactly where two nodes of one are in two; and
which meters become critical; and that as many edits as were made can be taken back. PROGRAM may be libobs.so. It stops at the first session
that differs.
"""
import collections
import copy
import os
import random
import sys

import answer
import asked
from cases import csv_of, random_case, records_of
from model import Network
from talking import EDITS, Talk

ASKS = ["difference", "mark", "outages", "pairs", "stations", "explain", "help", "report", "place", "tre"]
PARTS = ["nodes", "switches", "branches", "meters", "candidates"]


def fail(number, what, *values):
    print(f"case {number}: {what}", *values)
    sys.exit(1)


def begin(r, case, program):
    """A session over the tables of a case, with candidates or without."""
    contents = {part: csv_of(r, records) for part, records in zip(PARTS, records_of(case))}
    words = ["tables", *PARTS[:4], *(["with", "candidates"] if r.random() < 0.5 else [])]
    form = answer.Form(words)
    contents = {part: contents[part] for part in form.files}
    session = asked.begin(program, form, contents)
    return session, Talk(session, form.kind, contents)


def random_line(r, case):
    word = r.choice([*EDITS, *EDITS, "undo", r.choice(ASKS)])
    if word not in EDITS:
        return word
    rows = getattr(case, EDITS[word][0])
    return f"{word} {r.choice(rows)[0] if rows and r.random() < 0.9 else 'none'}"


def is_fed(network, node):
    return network.component[network.bus[node]] in network.energised


def expected(before, after):
    """What of an edit is to be said, by the words of the sentences."""
    nodes = range(len(after.case.nodes))
    island = lambda network, islands, node: islands[network.bus[node]]
    was, now = before.islands(), after.islands()
    both = [node for node in nodes if is_fed(before, node) and is_fed(after, node)]
    pairs = [(a, b) for a in both for b in both if a < b]
    names = lambda network: {network.case.meters[m][0] for m in network.critical(network.meters)}
    same = lambda network, islands, a, b: island(network, islands, a) == island(network, islands, b)
    return {
        "went dead: ": any(is_fed(before, node) and not is_fed(after, node) for node in nodes),
        "fed again: ": any(is_fed(after, node) and not is_fed(before, node) for node in nodes),
        "fell apart: ": any(same(before, was, a, b) and not same(after, now, a, b) for a, b in pairs),
        "One island now: ": any(same(after, now, a, b) and not same(before, was, a, b) for a, b in pairs),
        "Critical now: ": bool(names(after) - names(before)),
        "Critical no more: ": bool(names(before) - names(after)),
    }


def see_line(number, talk, line, counts):
    before = Network(copy.deepcopy(talk.case))
    text = talk.answer(line)
    if not text.endswith("\n"):
        fail(number, "no whole answer to", line, text)
    counts["lines"] += 1
    if line.partition(" ")[0] not in EDITS and line != "undo":
        return
    counts["edits"] += 1
    for words, is_so in expected(before, Network(copy.deepcopy(talk.case))).items():
        if (words in text) != is_so:
            fail(number, f"{line}: that it says {words!r} is to be {is_so}", text)


def see_session(number, program, counts):
    r = random.Random(number)
    case = random_case(r)
    session, talk = begin(r, case, program)
    first = copy.deepcopy(talk.case)
    for _ in range(12):
        see_line(number, talk, random_line(r, case), counts)
    while talk.done:
        see_line(number, talk, "undo", counts)
    flags = lambda one: [[row[3] for row in rows] for rows in (one.switches, one.branches, one.meters)]
    if flags(talk.case) != flags(first):
        fail(number, "what was done can't be taken back")
    session.end()


def main():
    program = os.path.abspath(sys.argv[1])
    first, count = (int(word) for word in (sys.argv[2:] + ["0", "100"][len(sys.argv) - 2 :]))
    counts = collections.Counter()
    for number in range(first, first + count):
        see_session(number, program, counts)
    print(f"{count} sessions in sentences: {counts['edits']} edits and {counts['lines']} lines are said as they are")


main()
