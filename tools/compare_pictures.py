#!/usr/bin/env python3
"""Compares explanations, drawings and written tables of random small cases with what the definitions say.

Usage: tools/compare_pictures.py PROGRAM [FIRST [COUNT]]

Each number from FIRST (0) on makes one case, for COUNT (1000) cases, with names that are hard to quote. Of two thirds of them it is seen
that the drawing has each bus and each live branch once, that its groups are the islands and the dead parts, that each branch between
two islands is named, and that a flow meter at it, and an injection at a bus that is named as free, raises the rank by one, and in an
absolute part an angle meter at a bus outside of the island that is named as tied to the reference, and at no other bus; and that of a
part without a source those switches and branches are named that would feed it, and no others; that of each outage those buses are told
that go dead; and that no purchase makes more pairs than the cheapest of the chosen candidates do for as much money. Of each tenth number
the picture by Graphviz has each bus with its name and colour, and none covers what is written at a line; and of each hundredth the page as
Chromium has it, where these are there. The others are files in the IEEE format and of MATPOWER: the report of the tables that
tools/tables writes is to be that of the file. It stops at the first case that differs.
"""
import collections
import html
import itertools
import os
import random
import re
import shutil
import subprocess
import sys
import tempfile

import answer
import model_reads
from beware import feeds_of
from compare import FILES, cdf_of, csv_of, items_of, matpower_of, random_case, records_of
from drawing import UNSOURCED, Drawing, colours_of
from explaining import sections_of
from layout import covered
from losing import cut_of
from model import Case, Network
from model_text import SUMMARY
from severed import cuts_of
from wording import Words, quoted, shown

HARD_NAMES = ["\\", "\\N", "a\\", "&amp;", "&#65;", "<b>", "</script>", "\udcff\udcfe", "\u200b", " x ", "%s", "}", "a -- b", "C:\\new\\g"]
PROGRAM = os.path.abspath(sys.argv[1]) if len(sys.argv) > 1 else ""
TOOLS = os.path.dirname(os.path.abspath(__file__))


def fail(number, what, *values):
    print(f"case {number}: {what}", *values)
    sys.exit(1)


def write(folder, name, content):
    with open(os.path.join(folder, name), "wb") as file:
        file.write(content)


def groups_of(drawing):
    """The buses of each group, and the ends of each branch, from the lines of a drawing."""
    groups, lines, name = {}, [], None
    for line in drawing.split("\n"):
        start = re.fullmatch(r"  subgraph (\w+) \{", line)
        bus, branch = re.match(r"    b(\d+) \[", line), re.match(r'  b(\d+) -- b(\d+) \[.*\bid="branch_(\d+)"', line)
        if start:
            name = start[1]
            groups[name] = []
        elif bus:
            groups[name].append(int(bus[1]))
        elif branch:
            lines.append(tuple(int(branch[k]) for k in (3, 1, 2)))
    return groups, lines


def expected_groups(network):
    islands = network.islands()
    groups = collections.defaultdict(list)
    for u, part in enumerate(network.component):
        groups[f"island_{islands[u]}" if part in network.energised else f"part_{part}"].append(u)
    return dict(groups), islands


def rank_with(case, row):
    """The greatest length of an assignment with a meter more."""
    network = Network(Case(case.nodes, case.switches, case.branches, [*case.meters, row], []))
    return network.rho(network.meters)


def see_ties(number, case, network, islands, found):
    """That the explanation names each branch between two islands, and that meters there help."""
    rank = network.rho(network.meters)
    ties = [e for e in network.live_branches if islands[network.ends[e][0]] != islands[network.ends[e][1]]]
    if found.ties != ties:
        fail(number, "other branches between islands", found.ties, ties)
    entries = [entry for _, some in sections_of(found, Words(found, 1000)) for entry in some]
    named = [item for sentence, items in entries if "two islands. A" in sentence for item in items]
    if len(named) != len(ties) or any(not any(item.startswith(Words(found, 9).branch_name(e)) for item in named) for e in ties):
        fail(number, "other branches are named", named)
    count = 0
    for e in ties:
        free = [u for u in network.ends[e] if u not in found.injected]
        for row in [["more", "flow", e, True]] + [["more", "injection", found.firsts[u], True] for u in free]:
            count += 1
            if rank_with(case, row) != rank + 1:
                fail(number, "a meter between two islands doesn't raise the rank", row)
    return count


def see_angles(number, case, network, found):
    """That in an absolute part an angle meter helps exactly outside of the island that is tied to the reference."""
    rank, count = network.rho(network.meters), 0
    if found.absolute != network.absolute.intersection(network.energised):
        fail(number, "other parts are absolute", found.absolute)
    for part in found.absolute:
        for u in found.parts[part]:
            count += 1
            more = found.island[u] != found.with_reference.get(part)
            if rank_with(case, ["more", "angle", found.firsts[u], True]) != rank + more:
                fail(number, "an angle meter raises the rank otherwise", u)
    return count


def see_feeds(number, case, found):
    """That of each part without a source those rows are named which would feed it."""
    named = {(part, way) for part, ways in feeds_of(found).items() for way in ways}
    wanted = set()
    for word, rows in [("closing", case.switches), ("restoring", case.branches)]:
        for row in (row for row in rows if not row[3]):
            row[3] = True
            network = Network(case)
            row[3] = False
            is_fed = lambda u: network.component[network.bus[found.firsts[u]]] in network.energised
            wanted |= {(part, f"{word} {quoted(row[0])}") for part, buses in found.dead_parts.items() if all(map(is_fed, buses))}
    if named != wanted:
        fail(number, "other rows would feed a part", named, wanted)
    return len(wanted)


def see_cuts(number, case, network, found):
    """That of each outage those buses are named which go dead, and as many pairs fewer are needed as is said."""
    cuts = cuts_of(found)
    for e in network.live_branches:
        case.branches[e][3] = False
        without = Network(case)
        case.branches[e][3] = True
        dead = [u for u, part in enumerate(without.component) if network.component[u] in network.energised and part not in without.energised]
        cut = cut_of(cuts, e)
        if (cut.dead, cut.buses(), network.needed - cut.fewer) != (len(dead), dead, without.needed):
            fail(number, "an outage cuts off other buses", e, cut, dead)
    return len(network.live_branches)


def see_purchases(number, case, network, found):
    """That the cheapest chosen candidates make a pair each, and as many as any candidates for no more than they cost."""
    cost = lambda some: sum(case.candidates[c][3] for c in some)
    rank = lambda some: network.rho(sorted([*network.meters, *(len(case.meters) + c for c in some)]))
    chosen = sorted((found.candidate_at[name] for name in found.plan.chosen), key=lambda c: case.candidates[c][3])
    fronts = [chosen[:k] for k in range(len(chosen) + 1)]
    if [rank(front) - rank([]) for front in fronts] != list(range(len(fronts))):
        fail(number, "the cheapest of the chosen don't make a pair each", chosen)
    live = found.live_candidates
    purchases = [some for count in range(len(live) + 1) for some in itertools.combinations(live, count)]
    for some in purchases:
        if rank(some) - rank([]) > max(len(front) for front in fronts if cost(front) <= cost(some)):
            fail(number, "a purchase makes more pairs", some, chosen)
    return len(purchases)


def see_nodes(number, found, text):
    """That each bus and live branch is in a picture once, each bus with its name and colour."""
    drawn = re.findall(r'id="(bus|branch)_(\d+)" class="(?:node|edge)"', text)
    if sorted(drawn) != sorted([("bus", str(u)) for u in range(len(found.names))] + [("branch", str(e)) for e in found.ends]):
        fail(number, "other nodes and lines in the picture", drawn)
    colours = colours_of(found)
    for u, part in re.findall(r'id="bus_(\d+)" class="node">(.*?</text>)', text, re.DOTALL):
        island = found.island[int(u)]
        wanted = (colours[island] if island is not None else UNSOURCED)[0], shown(found.names[int(u)])
        name = html.unescape(re.search(r"<text [^>]*>(.*?)</text>", part)[1]).replace("\xa0", " ")
        seen = re.search(r'fill="(#\w+)"', part)[1].upper(), name
        if seen != wanted:
            fail(number, "another colour or name of a bus", seen, wanted)


def see_picture(number, folder, words, found):
    """The picture by Graphviz, and of some cases the page as Chromium has it."""
    run = lambda *some: subprocess.run(some, cwd=folder, stdin=subprocess.DEVNULL, capture_output=True)
    tool = [os.path.join(TOOLS, "draw"), "--obs", PROGRAM]
    for option, name in [("--svg", "picture.svg"), ("--page", "page.html")]:
        made = run(*tool, option, name, *words)
        if made.returncode not in (0, 1) or not SUMMARY.fullmatch(made.stderr):
            fail(number, "draw says", made)
        with open(os.path.join(folder, name), encoding="utf-8") as file:
            text = file.read()
        see_nodes(number, found, text)
        if covered(text):
            fail(number, "a bus covers what is written at a line", covered(text))
    if number % 100 == 0 and shutil.which("chromium"):
        page = run("chromium", "--headless", "--no-sandbox", "--disable-gpu", "--dump-dom", "file://" + os.path.join(folder, "page.html"))
        see_nodes(number, found, page.stdout.decode())


def see_case(r, number, folder, case):
    names = r.sample(HARD_NAMES, len(case.nodes))
    case.nodes = [(names[k] if r.random() < 0.5 else row[0], *row[1:]) for k, row in enumerate(case.nodes)]
    for row in case.branches:
        row[0] += r.choice(["", *HARD_NAMES])
    for name, records in zip(FILES, records_of_bytes(case)):
        write(folder, name, csv_of(r, records))
    words = ["tables", *FILES[:4], *(["with", FILES[4]] if r.random() < 0.5 else [])]
    found = answer.ask(PROGRAM, answer.Form([os.path.join(folder, word) if word in FILES else word for word in words]))
    network = Network(case)
    groups, islands = expected_groups(network)
    drawn, lines = groups_of(Drawing(found, Words(found, 20)).text())
    if drawn != groups or sorted(lines) != sorted((e, *ends) for e, ends in network.rows.items()):
        fail(number, "other groups or branches are drawn", drawn, groups, lines)
    counts = {"rows that feed a part": see_feeds(number, case, found), "outages": see_cuts(number, case, network, found)}
    counts["purchases"] = see_purchases(number, case, network, found) if found.plan else 0
    if number % 10 == 0 and shutil.which("dot"):
        see_picture(number, folder, words, found)
    counts["angle meters"] = see_angles(number, case, network, found)
    return counts | {"meters between islands": see_ties(number, case, network, islands, found)}


def records_of_bytes(case):
    """The records of a case whose names need not be UTF-8."""
    plain = Case([(str(k), *row[1:]) for k, row in enumerate(case.nodes)], *([[f"{k}", *row[1:]] for k, row in enumerate(rows)] for rows in (
        case.switches, case.branches, case.meters, case.candidates)))
    bytes_of = lambda rows: [row[0].encode("utf-8", "surrogateescape") for row in rows]
    nodes, branches = bytes_of(case.nodes), bytes_of(case.branches)
    tables = records_of(plain)
    own = [nodes, bytes_of(case.switches), branches, bytes_of(case.meters), bytes_of(case.candidates)]
    for part, table, names in zip(FILES, tables, own):
        for record, name in zip(table[1:], names):
            record[0] = name
            if part in ("switches", "branches"):
                record[1:3] = [nodes[int(end)] for end in record[1:3]]
            elif part != "nodes":
                record[2] = (branches if record[1] == b"flow" else nodes)[int(record[2])]
    return tables


def see_tables(r, number, folder, case):
    """That the report of the written tables is that of the file. With names by ends the branches have other names alone."""
    kind, make, read = r.choice([("cdf", cdf_of, model_reads.read_cdf), ("matpower", matpower_of, model_reads.read_matpower)])
    write(folder, "case", b"\n".join(make(r, case)[0]) + b"\n")
    tables = items_of(r, *read(open(os.path.join(folder, "case"), "rb").read()))
    for name, records in zip(FILES[3:], tables):
        write(folder, name, csv_of(r, records))
    run = lambda *words: subprocess.run(words, cwd=folder, capture_output=True)
    wanted = run(PROGRAM, "report", kind, "case", "meters")
    made = ["made/" + name + ".csv" for name in FILES]
    for options in [], ["--ends"]:
        shutil.rmtree(os.path.join(folder, "made"), ignore_errors=True)
        run(os.path.join(TOOLS, "tables"), *options, kind, "case", "meters", "with", "candidates", "made")
        printed = run(PROGRAM, "report", "tables", *made[:4])
        branches = answer.records_of(open(os.path.join(folder, made[2]), "rb").read())[1:]
        names = {row[0]: b"L%d" % k for k, row in enumerate(branches, 1)}
        lines = [line.split(b"\t") for line in printed.stdout.split(b"\n")]
        text = b"\n".join(b"\t".join([*line[:-1], names[line[-1]]] if line[0] == b"pair" else line) for line in lines)
        if (text, printed.returncode) != (wanted.stdout, wanted.returncode):
            fail(number, "another report of the tables", text, wanted)


def main():
    first, count = (int(word) for word in (sys.argv[2:] + ["0", "1000"][len(sys.argv) - 2 :]))
    tried, drawn, tabled = collections.Counter(), 0, 0
    with tempfile.TemporaryDirectory() as folder:
        for number in range(first, first + count):
            r = random.Random(number)
            case = random_case(r)
            if number % 3 == 2:
                see_tables(r, number, folder, case)
                tabled += 1
            else:
                tried.update(see_case(r, number, folder, case))
                drawn += 1
    print(f"{drawn} cases drawn and explained, {tabled} written as tables")
    print("tried: " + ", ".join(f"{count} {what}" for what, count in tried.items()))


if __name__ == "__main__":
    main()
