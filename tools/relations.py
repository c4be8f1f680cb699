#!/usr/bin/env python3
"""Sees that answers to one case, and to cases that are made from it, go together: where no model can follow, these still must.

Usage: tools/relations.py PROGRAM FOLDER [SEED [EDITS]]

FOLDER has nodes.csv, switches.csv, branches.csv, meters.csv and candidates.csv, as tools/shapes.py or tools/edits.py make them; nodes may
have the column `absolute` behind the others. Rows in another order change no count, verdict, critical meter or island. Edits and their
undoing give the report of before. A session after EDITS (1000) edits prints what a fresh run over the edited tables prints. The chosen
candidates of a plan, added as meters, make the case observable, and any of them left out doesn't; where the table of meters has no room
for them, meters without a pair are left out. The answers to `tree`, `bound`, `cert` and `place` pass `verify`. It stops at the first
that doesn't hold.
"""
import csv
import io
import os
import random
import sys
import tempfile

from model_reads import COLUMNS, FURTHER, MOST_ROWS
from runs import KEPT, Runs

FIVE = list(COLUMNS)
WORDS = {"switches": ("open", "close"), "branches": ("trip", "restore"), "meters": ("lose", "regain")}
ASKS = ["status", "islands", "critical", "cert", "report", "place"]


class Tables:
    """The rows of five tables, as words."""

    def __init__(self, rows):
        self.rows = rows

    @classmethod
    def of_folder(cls, folder):
        rows = {}
        for part in FIVE:
            with open(os.path.join(folder, f"{part}.csv"), newline="", encoding="utf-8") as file:
                rows[part] = list(csv.reader(file))[1:]
        return cls(rows)

    def copy(self):
        return Tables({part: [list(row) for row in rows] for part, rows in self.rows.items()})

    def write(self, runs, mark=""):
        """Writes the tables, and gives the words of their form and the file of candidates."""
        for part, rows in self.rows.items():
            text = io.StringIO()
            columns = [*COLUMNS[part], *FURTHER.get(part, [])][: len(rows[0]) if rows else len(COLUMNS[part])]
            csv.writer(text, lineterminator="\n").writerows([columns, *rows])
            runs.write(mark + part, text.getvalue().encode())
        return ["tables", *(mark + part for part in FIVE[:4])], mark + FIVE[4]

    def shuffled(self, r):
        return Tables({part: r.sample(rows, len(rows)) for part, rows in self.rows.items()})

    def some_edits(self, r, count, apart=False):
        """So many edits as (table, row, line), made in a copy of these tables, which is given too; `apart`: of different rows."""
        after, edits = self.copy(), []
        places = [(part, k) for part in WORDS for k in range(len(self.rows[part]))]
        count = min(count, len(places)) if apart or not places else count
        for part, k in r.sample(places, count) if apart else r.choices(places, k=count) if places else []:
            row = after.rows[part][k]
            row[-1] = "1" if row[-1] == "0" else "0"
            edits.append((part, k, f"{WORDS[part][int(row[-1])]} {row[0]}"))
        return after, edits


def words_of(text):
    return [line.split("\t") for line in text.decode("utf-8").split("\n")[:-1]]


def lines_of(lines):
    return "".join(line + "\n" for line in lines).encode()


def grouped(topology, report):
    """The sets of nodes that are islands."""
    island = {words[2]: words[1] for words in words_of(report) if words[0] == "island"}
    sets = {}
    for words in words_of(topology):
        if words[0] == "node" and words[2] in island:
            sets.setdefault(island[words[2]], []).append(words[1])
    return sorted(sorted(some) for some in sets.values())


def answered(runs, number, words, given=b""):
    """What is written, and the status, which is to be that of an answer."""
    found = runs.run(words, given)
    if found[1] not in (0, 1):
        runs.differs(number, words, given, found, (b"an answer", "0 or 1"))
    return found


def by_names(runs, number, form):
    """What an order of the rows must not change: counts, verdict, critical meters, islands."""
    topology = answered(runs, number, ["topology", *form[1:3]])[0]
    report, status = answered(runs, number, ["report", *form])
    kept = sorted(words for words in words_of(report) if words[0] in ("count", "verdict", "critical"))
    return repr((kept, grouped(topology, report))).encode(), status


def hold_order(number, runs, tables, r):
    form, _ = tables.write(runs)
    other, _ = tables.shuffled(r).write(runs, "other-")
    runs.alike(number, "rows in another order", ["report", *other], b"", by_names(runs, number, other), by_names(runs, number, form))


def hold_undoing(number, runs, tables, r, count):
    form, _ = tables.write(runs)
    _, edits = tables.some_edits(r, count, apart=True)
    undone = [f"{WORDS[part][int(tables.rows[part][k][-1])]} {tables.rows[part][k][0]}" for part, k, _ in edits]
    given = lines_of([line for _, _, line in edits] + r.sample(undone, len(undone)) + ["report"])
    found, status = answered(runs, number, ["session", *form], given)
    answers = found.split(b"\n", 2 * len(edits))
    is_ok = all(answer.startswith(b"ok\t") for answer in answers[:-1])
    wanted = answered(runs, number, ["report", *form])
    runs.alike(number, "edits and their undoing", ["session", *form], given, (answers[-1], status if is_ok else "refused"), wanted)


def hold_session(number, runs, tables, r, count, asks=ASKS):
    """The asks after edits, and the asks of a fresh session over the edited tables."""
    form, offered = tables.write(runs)
    after, edits = tables.some_edits(r, count)
    fresh, fresh_offered = after.write(runs, "fresh-")
    given, words = lines_of([line for _, _, line in edits] + asks), ["session", *form, "with", offered]
    found, status = answered(runs, number, words, given)
    found = found.split(b"\n", len(edits))[-1]
    fresh_words = ["session", *fresh, "with", fresh_offered]
    wanted = answered(runs, number, fresh_words, lines_of(asks))
    runs.alike(number, "a session and a fresh one", words, given, (found, status), wanted)
    report = answered(runs, number, fresh_words, b"report\n")
    runs.alike(number, "a session's report and a report", fresh_words, b"report\n", report, answered(runs, number, ["report", *fresh]))


def with_room(meters, plan, count):
    """The meters, without the last ones that have no pair in the plan where a table has no room for so many more."""
    paired = {words[2] for words in words_of(plan) if words[:2] == ["pair", "meter"]}
    free = [k for k, row in enumerate(meters) if row[0] not in paired]
    left_out = set(free[len(free) - max(0, len(meters) + count - MOST_ROWS) :])
    return [row for k, row in enumerate(meters) if k not in left_out]


def hold_plan(number, runs, tables, r, most):
    """The chosen ones as meters are enough, all are critical, and each of `most` that are lost in a session lowers the rank by one."""
    form, offered = tables.write(runs)
    plan, status = answered(runs, number, ["place", *form, offered])
    chosen = {words[1] for words in words_of(plan) if words[0] == "chosen"}
    if status == 1:
        runs.count["a shortfall"] += 1
        return
    bought = tables.copy()
    rows = [["+" + row[0], *row[1:3], "1"] for row in tables.rows["candidates"] if row[0] in chosen]
    bought.rows["meters"] = with_room(bought.rows["meters"], plan, len(rows)) + rows
    form, _ = bought.write(runs, "bought-")
    report, status = answered(runs, number, ["report", *form])
    lines = words_of(report)
    needed = next(int(words[2]) for words in lines if words[:2] == ["count", "needed"])
    critical = {words[1] for words in lines if words[0] == "critical"}
    missed = [row[0] for row in rows if row[0] not in critical]
    runs.alike(number, "a plan that is bought", ["report", *form], b"", (repr(missed).encode(), status), (b"[]", 0))
    lost = [row[0] for row in r.sample(rows, min(most, len(rows)))]
    given = lines_of(line for name in lost for line in (f"lose {name}", f"regain {name}"))
    wanted = b"".join(b"ok\t%d\t%d\nok\t%d\t%d\n" % (needed - 1, needed, needed, needed) for _ in lost), 0
    runs.alike(number, "a plan without one", ["session", *form], given, answered(runs, number, ["session", *form], given), wanted)


def hold_answers(number, runs, tables, asks=("tree", "bound", "cert", "place")):
    """What these asks print passes `verify`."""
    form, offered = tables.write(runs)
    for ask in asks:
        text = answered(runs, number, ["session", *form, "with", offered], lines_of([ask]))[0]
        runs.write("claims", text)
        count = sum(1 for words in words_of(text) if words[0] in ("tree", "bound", "cost", "shortfall"))
        words = ["verify", *form, "with", offered, "claims"]
        runs.alike(number, f"{ask} verified", words, b"", answered(runs, number, words), (b"valid\t%d\n" % count, 0))


def main():
    program, folder, seed, edits = sys.argv[1], sys.argv[2], *(int(word) for word in (sys.argv[3:] + ["0", "1000"][len(sys.argv) - 3 :]))
    tables, r = Tables.of_folder(folder), random.Random(seed)
    with tempfile.TemporaryDirectory() as scratch:
        runs = Runs(program, scratch, KEPT)
        hold_order(seed, runs, tables, r)
        hold_undoing(seed, runs, tables, r, edits)
        hold_session(seed, runs, tables, r, edits)
        hold_plan(seed, runs, tables, r, edits // 10)
        hold_answers(seed, runs, tables)
    runs.summary()


if __name__ == "__main__":
    main()
