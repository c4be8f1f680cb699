#!/usr/bin/env python3
"""Sees that what a study of losses says is what a session says that loses the same.

Usage: tools/relations_studies.py PROGRAM FOLDER [SEED [MOST [STUDY..]]]

FOLDER has tables as tools/relations.py takes them, which has the other relations. Of MOST (20) branches, meters or stations the numbers
of `outages`, the classes of `pairs` and the numbers of `stations` are held against a session, for all studies where none is named. It
stops at the first that differs.
"""
import random
import sys
import tempfile

from answer import joined
from relations import Tables, answered, lines_of, words_of
from runs import KEPT, Runs


def hold_outages(number, runs, tables, r, most):
    """As many outages as live branches; of some the numbers of a session that trips the branch."""
    form, _ = tables.write(runs)
    text = answered(runs, number, ["outages", *form])[0]
    found = [words[1:4] for words in words_of(text)[:-1]]
    counts = [words for words in words_of(answered(runs, number, ["report", *form])[0]) if words[:2] == ["count", "branches"]]
    some = r.sample(found, min(most, len(found)))
    given = lines_of(line for name, *_ in some for line in (f"trip {name}", f"restore {name}"))
    answers = words_of(answered(runs, number, ["session", *form], given)[0])[::2]
    wanted = repr((int(counts[0][2]), [["ok", rank, needed] for _, rank, needed in some])).encode()
    runs.alike(number, "outages and a session", ["outages", *form], given, (repr((len(found), answers)).encode(), 0), (wanted, 0))


def hold_pairs(number, runs, tables, r, most):
    """Of some meters the others of the class, and those that become critical in a session that loses the meter."""
    form, _ = tables.write(runs)
    class_of = {meter: first for _, first, meter in words_of(answered(runs, number, ["pairs", *form])[0])[:-1]}
    some = [row[0] for row in r.sample(tables.rows["meters"], min(most, len(tables.rows["meters"]))) if row[-1] == "1"]
    given = lines_of(["critical", *(line for name in some for line in (f"lose {name}", "critical", f"regain {name}"))])
    critical = [set()]
    for word, *rest in words_of(answered(runs, number, ["session", *form], given)[0]):
        critical[-1].update(rest if word == "critical" else [])
        critical += [set()] if word == "end" else []
    found = [{m for m, first in class_of.items() if m != name and first == class_of.get(name)} for name in some]
    wanted = [after - critical[0] for after in critical[1:-1]]
    sorted_of = lambda sets: repr(list(map(sorted, sets))).encode()
    runs.alike(number, "pairs and a session", ["pairs", *form], given, (sorted_of(found), 0), (sorted_of(wanted), 0))


def station_of(tables):
    """For each meter in service the first node of its station, by its name."""
    names = [row[0] for row in tables.rows["nodes"]]
    at = {name: k for k, name in enumerate(names)}
    of = joined(len(names), [(at[start], at[end]) for _, start, end, _ in tables.rows["switches"]])
    first = {name: names[of[k]] for name, k in at.items()}
    start_of = {row[0]: row[1] for row in tables.rows["branches"]}
    return {row[0]: first[start_of[row[2]] if row[1] == "flow" else row[2]] for row in tables.rows["meters"] if row[3] == "1"}


def hold_stations(number, runs, tables, r, most):
    """Of some stations the numbers of a session that loses their meters one by one."""
    form, _ = tables.write(runs)
    found = {words[1]: list(map(int, words[2:5])) for words in words_of(answered(runs, number, ["stations", *form])[0])[:-1]}
    station = station_of(tables)
    some = r.sample(sorted(set(station.values())), min(most, len(set(station.values()))))
    own = [[meter for meter in station if station[meter] == name] for name in some]
    edits = lambda word, meters: [f"{word} {meter}" for meter in meters]
    given = lines_of(["status", *(line for meters in own for line in (*edits("lose", meters), "status", *edits("regain", meters)))])
    lines = words_of(answered(runs, number, ["session", *form], given)[0])
    counts = {word: [int(words[2]) for words in lines if words[:2] == ["count", word]] for word in ("meters", "rank", "needed")}
    live = [counts["meters"][0] - count for count in counts["meters"][1:]]
    wanted = {name: [*numbers] for name, *numbers in zip(some, live, counts["rank"][1:], counts["needed"][1:]) if numbers[0]}
    shown = lambda of: repr([of.get(name) for name in some]).encode()
    runs.alike(number, "stations and a session", ["stations", *form], given, (shown(found), 0), (shown(wanted), 0))


HOLD = {"outages": hold_outages, "pairs": hold_pairs, "stations": hold_stations}


def main():
    program, folder, seed, most, *studies = sys.argv[1:] + ["0", "20"][max(0, len(sys.argv) - 3) :]
    tables, r = Tables.of_folder(folder), random.Random(int(seed))
    with tempfile.TemporaryDirectory() as scratch:
        runs = Runs(program, scratch, KEPT)
        for study in studies or HOLD:
            HOLD[study](seed, runs, tables, r, int(most))
    runs.summary()


if __name__ == "__main__":
    main()
