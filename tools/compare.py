#!/usr/bin/env python3
"""Compares what the program answers to random small cases with what the definitions say.

Usage: tools/compare.py PROGRAM [FIRST [COUNT [SECONDS]]]

Each number from FIRST (0) on makes one case, for COUNT (1000) cases, as long as SECONDS aren't over; FIRST may be the word `commit`,
which stands for a number that the name of the commit gives. All commands are run over all forms: tables, files in the IEEE format and
MATPOWER files, of which many are spoilt, with and without candidates, sessions with edits and asks, certificates of which most are
spoilt. A few cases are trials, a few have a file or an input that isn't there or is too long, and a few have words without a form. What
is written and the status are to be those of tools/model.py and the files beside it, which share nothing with the program. It says how
many cases there were of each kind and fault, and stops at the first that differs: its files are kept in the folder `differs`.
"""
import os
import random
import re

import model_claims
import model_reads
from cases import FILES, all_bounds, bytes_of, cdf_of, csv_of, items_of, matpower_of, random_case, records_of, session_lines
from cases import spoil_lines, spoil_records, spoilt_claims, with_marks
from model import Network
from model_studies import STUDIES
from model_text import Text, line, session, trial
from model_words import have_form, usage
from runs import run_cases

MOST_BYTES = 16777216
COMMANDS = ["topology", "report", "place", "place", "session", "session", "verify", "verify", "verify", *STUDIES]
ODD_WORDS = ["", "with", "tables", "cdf", "matpower", "report", "place", "session", "verify", "trial", "Report", "--help", "0", "101",
             "outages", "pairs", "stations"]


def header(part):
    return [[word.encode() for word in model_reads.COLUMNS[part]]]


def given_tables(r, runs, case):
    """Writes tables, of which some are spoilt. Gives the words of the form, and a call that reads the case or raises its fault."""
    tables = records_of(case)
    tables[0] = with_marks(r, case, tables[0])
    if r.random() < 0.4:
        tables = [spoil_records(r, some) if r.random() < 0.3 else some for some in tables]
    for name, records in zip(FILES, tables):
        runs.write(name, csv_of(r, records))

    def read(count):
        """Reads so many tables; the others are header lines alone."""
        return model_reads.read_tables(tables[:count] + [header(part) for part in FILES[count:]])

    return ["tables", *FILES[:4]], read


def given_file(r, runs, kind, case):
    """As given_tables, of a file in the IEEE format or of MATPOWER with tables of meters and candidates."""
    lines, bytes_ = (cdf_of if kind == "cdf" else matpower_of)(r, case)
    end = r.choice([b"\n", b"\r\n"])
    content = end.join(spoil_lines(r, lines, bytes_) if r.random() < 0.4 else lines) + r.choice([end, b""])
    reader = model_reads.read_cdf if kind == "cdf" else model_reads.read_matpower
    try:
        nodes, branches = reader(content)
    except model_reads.Fault:
        nodes, branches = [("1", True, False)], []
    tables = [spoil_records(r, some) if r.random() < 0.1 else some for some in items_of(r, nodes, branches)]
    runs.write("case", content)
    for name, records in zip(FILES[3:], tables):
        runs.write(name, csv_of(r, records))

    def read(count):
        return model_reads.with_items(*reader(content), tables[0], tables[1] if count == 5 else header("candidates"))

    return [kind, "case", FILES[3]], read


def random_claims(r, case):
    text = Text(case)
    printed = r.choice([text.ask("cert"), text.ask("place"), text.claims() + text.ask("place"), all_bounds(text)])
    return bytes_of(spoilt_claims(r, case, printed))


def compare_command(r, number, runs, form, read):
    """One command over files that are a case, or have a fault."""
    command = r.choice(COMMANDS[form[0] != "tables" :])
    offered = command == "place" or (command in ("session", "verify") and r.random() < 0.5)
    try:
        case, fault = read(5 if offered else 2 if command == "topology" else 4), None
    except model_reads.Fault as found:
        case, fault = random_case(r), found
    words = [command, *(form[1:3] if command == "topology" else form)]
    words += ["with"] * (offered and command != "place") + [FILES[4]] * offered
    lines = session_lines(r, case) if command == "session" else b""
    if command == "verify":
        claims = random_claims(r, case)
        runs.write("claims", claims)
        words.append("claims")
    if fault:
        text, status = str(fault), 3
    elif command == "session":
        text, status = session(case, offered, lines)
    elif command == "verify":
        text, status = model_claims.verify(case, claims)
    elif command == "topology":
        text, status = Text(case).topology(), 0
    elif command in STUDIES:
        text, status = STUDIES[command](case, Network)
    else:
        text, status = Text(case).ask(command), Text(case).status(command)
    runs.compare(number, f"{command} {form[0]}", words, text, status, lines, Text(case).said(command) if not fault and status < 2 else None)
    if r.random() < 0.02:
        compare_outside(r, number, runs, words, lines, text if status < 2 else None)


def compare_outside(r, number, runs, words, lines, text):
    """The same words with a file that isn't there, or one that is too long, or with too many bytes for a session that had this text."""
    at = r.choice([k for k, word in enumerate(words) if word in (*FILES, "case", "claims")])
    what = r.choice(["no such file", "a long file", "a long session"])
    if what == "no such file":
        runs.compare(number, what, [*words[:at], "absent", *words[at + 1 :]], "", 4, lines)
    elif what == "a long file":
        os.truncate(os.path.join(runs.folder, words[at]), MOST_BYTES + 1)
        part = {"case": words[1], "claims": "certificate"}.get(words[at], words[at])
        runs.compare(number, what, words, line("fault", part, 0, 14, "TooLong"), 3, lines)
    elif words[0] == "session" and text is not None and lines.endswith(b"\n"):
        runs.compare(number, what, words, text, 7, lines + b"#" * MOST_BYTES)


def compare_trial(r, number, runs):
    words = ["trial", str(r.choice([1, 2, 2, 3])), str(r.randrange(2**40))]
    written = runs.run(words)[0].decode()
    searches = re.search(r"^searches\t(\d+)$", written, re.MULTILINE)
    text, status, may = trial(int(words[1]), int(words[2]), int(searches[1]) if searches else 0)
    runs.compare(number, "trial", words, text if may else "the number of searches is out of its bounds", status)


def compare_words(r, number, runs, form):
    """Words with a word less, twice or another, which have no form: the usage line and status 2."""
    heads = [["topology", *form[1:3]], ["report", *form], ["place", *form, "c"], ["session", *form, "with", "c"]]
    heads += [[study, *form] for study in STUDIES]
    words = r.choice([*heads, ["verify", *form, "with", "c", "claims"], ["trial", "3", "1"]])
    at, what = r.randrange(len(words)), r.randrange(5)
    other = [[], [words[at]] * 2, [r.choice(ODD_WORDS)], [words[at], r.choice(ODD_WORDS)], [b"\xff\xfe"]][what]
    words = words[:at] + other + words[at + 1 :]
    if b"\xff\xfe" in words or not have_form(words):
        runs.compare(number, "words without a form", words, usage(), 2)


def compare_case(number, runs):
    r = random.Random(number)
    case, kind = random_case(r), r.randrange(100)
    if kind == 0:
        compare_trial(r, number, runs)
    elif kind < 4:
        compare_words(r, number, runs, r.choice([["tables", *"nsbm"], ["cdf", "c", "m"], ["matpower", "c", "m"]]))
    else:
        form = r.choice(["tables", "tables", "cdf", "matpower"])
        given = given_tables(r, runs, case) if form == "tables" else given_file(r, runs, form, case)
        compare_command(r, number, runs, *given)


if __name__ == "__main__":
    run_cases(compare_case)
