#!/usr/bin/env python3
"""Compares what the program answers to random cases of 12 to 60 nodes with a second model, and with itself over cases that go together.

Usage: tools/middle.py PROGRAM [FIRST [COUNT [SECONDS]]]

The words are those of tools/compare.py. The model is that of tools/model_middle.py, which finds assignments by matroid intersection and
sees bounds on the spot. Reports, placements, sessions and studies of losses are to be as it says. A certificate of which one word was
changed is to be answered as it says; where it is valid still, what it claims is to be true by the model. What tools/relations.py sees is
seen here too, a study is held against a session that loses the same, and some small cases are given to both models.
"""
import random

import model_claims
import relations
import relations_studies
from cases import bytes_of, random_case, records_of
from model import Case, Network
from model_middle import Middle
from model_studies import STUDIES
from model_text import ASKS, EDITS, Text, session
from runs import run_cases

KINDS = list(map(bytes.decode, model_claims.FORMS))
PRICES = [0, 1, 1, 2, 3, 3, 7, 40, 10**9]


def links_of(r, count):
    """Ends of branches of a network of many kinds: a path, a ring, a star, a ladder, a random tree, each with some chords; or any."""
    kind = r.randrange(6)
    if kind == 0:
        links = [(v, v + 1) for v in range(count - 1)]
    elif kind == 1:
        links = [(v, (v + 1) % count) for v in range(count)]
    elif kind == 2:
        links = [(r.choice([0, 0, v // 2]), v) for v in range(1, count)]
    elif kind == 3:
        links = [(v, v + 2) for v in range(count - 2)] + [(v, v + 1) for v in range(0, count - 1, 2)]
    elif kind == 4:
        links = [(r.randrange(max(0, v - 4), v), v) for v in range(1, count)]
    else:
        links = []
    chords = r.choice([0, 0, 1, 2, count // 4, count // 2, count if kind == 5 else 3])
    links += [(r.randrange(count), r.randrange(count)) for _ in range(chords)]
    links += r.choices(links, k=r.choice([0, 0, 1, count // 5])) if links else []
    if r.random() < 0.6:
        r.shuffle(links)
    return links


def random_middle(r):
    """A case whose meters are about as many as are needed; buses have one or two nodes, and some parts are absolute."""
    buses, doubled = r.randint(9, 45), r.choice([0, 0, 0.2, 0.33])
    mark = list(range(buses))
    if r.random() < 0.5:
        r.shuffle(mark)
    second = [v for v in range(buses) if r.random() < doubled]
    count = max(12, buses + len(second))
    fed, marked, in_service = r.choice([0.05, 0.05, 0.3]), r.choice([0, 0, 0.05, 1]), r.choice([0.97, 0.97, 0.7])
    nodes = [(f"n{v}", r.random() < fed or v == 0, r.random() < marked) for v in range(count)]
    second_of = {v: buses + k for k, v in enumerate(second)}
    end = lambda v: second_of[mark[v]] if mark[v] in second_of and r.random() < 0.5 else mark[v]
    switches = [[f"s{k}", v, second_of[v], r.random() < 0.9] for k, v in enumerate(second)]
    if r.random() < 0.3:
        switches += [[f"t{k}", r.randrange(count), r.randrange(count), r.random() < 0.1] for k in range(5)]
    branches = [[f"b{e}", end(a), end(b), r.random() < in_service] for e, (a, b) in enumerate(links_of(r, buses))]
    flows, angles = r.choice([0, 0.1, 0.5, 0.5, 0.9]) if branches else 0, r.choice([0.05, 0.2, 0.5]) if marked else r.choice([0, 0, 0.1])

    def item(name, last):
        if r.random() < angles:
            return [name, "angle", r.randrange(count), last]
        if r.random() < flows:
            return [name, "flow", r.randrange(len(branches)), last]
        return [name, r.choice(["injection", "injection", "zero"]), r.randrange(count), last]

    share = r.choice([0.3, 0.8, 1, 1, 1.2, 1.5])
    meters = [item(f"m{k}", r.random() < 0.95) for k in range(int(buses * share))]
    if r.random() < 0.3:
        meters = [[f"m{k}", "injection", end(v), True] for k, v in enumerate(r.sample(range(buses), int(buses * min(share, 1))))]
    offered = [item(f"c{k}", r.choice(PRICES)) for k in range(r.choice([0, 5, 20, buses]))]
    return Case(nodes, switches, branches, meters, offered)


def session_lines(r, case):
    lines = []
    for _ in range(r.randint(3, 12)):
        word = r.choice(list(EDITS))
        rows = getattr(case, EDITS[word][0])
        if r.random() < 0.25 or not rows:
            lines.append(r.choice(ASKS))
        else:
            lines.append(f"{word} {r.choice(rows)[0]}")
    return relations.lines_of(lines)


def with_other_word(r, case, text):
    """A certificate of which one word is another, most often one of its own kind."""
    lines = [one.split("\t") for one in text.split("\n")[:-1]]
    at = r.randrange(len(lines))
    k = r.randrange(min(r.choice([0, 1, 1, 1]), len(lines[at]) - 1), len(lines[at]))
    word = lines[at][k]
    tables = [[row[0] for row in rows] for rows in (case.nodes, case.branches, case.meters, case.candidates)]
    alike = next((some for some in [*tables, ["meter", "candidate"], KINDS] if word in some), KINDS)
    other = str(max(0, int(word) + r.choice([-2, -1, 1, 2]))) if word.isdigit() else r.choice(alike)
    lines[at] = lines[at][:k] + [other] + lines[at][k + 1 :]
    return "\n".join("\t".join(words) for words in lines) + "\n"


def are_true(network, content):
    """Whether the claims are true of the network, whatever their lines show."""
    for lines in model_claims.read_claims(content)[0]:
        claim = model_claims.Claim(network, lines)
        if claim.kind in (b"tree", b"bound") and network.is_observable(claim.component()) != (claim.kind == b"tree"):
            return False
        found = network.cheapest() if claim.kind in (b"cost", b"shortfall") else None
        if claim.kind == b"shortfall" and found is not None:
            return False
        if claim.kind == b"cost" and (found is None or sum(map(network.price, found[0])) != claim.numbers[0]):
            return False
        if claim.kind == b"cost" and network.rho(network.meters + sorted(claim.chosen)) != network.needed:
            return False
    return True


def compare_claims(r, number, runs, case, form, offered):
    text = Text(case, Middle)
    printed = r.choice([text.ask("cert"), text.ask("place")])
    claims = bytes_of(with_other_word(r, case, printed) if r.random() < 0.9 else printed)
    runs.write("claims", claims)
    wanted, status = model_claims.verify(case, claims, Middle)
    words = ["verify", *form, "with", offered, "claims"]
    runs.compare(number, "a changed certificate", words, wanted, status)
    if status == 0:
        runs.alike(number, "valid claims are true", words, b"", are_true(text.network, claims), True)


def compare_relations(r, number, runs, tables):
    relation = r.choice([
        lambda: relations.hold_order(number, runs, tables, r),
        lambda: relations.hold_undoing(number, runs, tables, r, 20),
        lambda: relations.hold_session(number, runs, tables, r, r.choice([5, 40])),
        lambda: relations.hold_plan(number, runs, tables, r, 5),
        lambda: relations.hold_answers(number, runs, tables),
        *(lambda hold=relations_studies.HOLD[study]: hold(number, runs, tables, r, 5) for study in STUDIES),
    ])
    relation()


def compare_models(r, number, runs):
    """A small case, which the model of tools/model.py answers too."""
    case = random_case(r)
    for what in ("report", "place"):
        runs.alike(number, f"both models: {what}", [what], b"", Text(case, Middle).ask(what), Text(case).ask(what))
    for study, answered_of in STUDIES.items():
        runs.alike(number, f"both models: {study}", [study], b"", answered_of(case, Middle), answered_of(case, Network))


def compare_case(number, runs):
    r = random.Random(number)
    case, kind = random_middle(r), r.randrange(20 + 2 * len(STUDIES))
    if kind == 0:
        compare_models(r, number, runs)
        return
    records = zip(relations.FIVE, records_of(case))
    tables = relations.Tables({part: [[word.decode() for word in row] for row in rows[1:]] for part, rows in records})
    if kind < 5:
        compare_relations(r, number, runs, tables)
        return
    form, offered = tables.write(runs)
    if kind < 9:
        text = Text(case, Middle)
        runs.compare(number, "report", ["report", *form], text.ask("report"), text.status())
        runs.count["observable" if text.status() == 0 else "short"] += 1
    elif kind < 13:
        text = Text(case, Middle)
        runs.compare(number, "place", ["place", *form, offered], text.ask("place"), text.status("place"))
        runs.count["a plan" if text.status("place") == 0 else "a shortfall"] += 1
    elif kind >= 20:
        study = list(STUDIES)[(kind - 20) // 2]
        runs.compare(number, study, [study, *form], *STUDIES[study](case, Middle))
    elif kind < 15:
        given = session_lines(r, case)
        runs.compare(number, "session", ["session", *form, "with", offered], *session(case, True, given, Middle), given)
    else:
        compare_claims(r, number, runs, case, form, offered)


if __name__ == "__main__":
    run_cases(compare_case)
