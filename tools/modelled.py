#!/usr/bin/env python3
"""Answers words as obs does, by the definitions alone, for small cases: what is to be printed, before there is a program that prints it.

Usage: tools/modelled.py WORDS

The words, the files, what is printed and the status are those of the program, but on standard error no more is said than what stands
beside a whole answer. Assignments are found by tools/model_middle.py, so cases of some dozens of buses take a second. The searches of a
trial are as few as they may be. So `tools/compare.py tools/modelled.py` and `tools/middle.py tools/modelled.py` hold the models against
each other and against themselves, and `examples/check tools/modelled.py` the examples and the pages against the definitions.
"""
import sys

import model_claims
import model_reads
from answer import records_of
from model_middle import Middle
from model_studies import STUDIES
from model_text import Text, answer_line, trial
from model_words import have_form, usage

MOST_BYTES = 16777216
FILES_OF = {"tables": ["nodes", "switches", "branches", "meters"], "cdf": ["cdf", "meters"], "matpower": ["matpower", "meters"]}


class Words:
    """Words that have a form: the command, the form of the case, and the parts and names of the files."""

    def __init__(self, words):
        self.command = words[0]
        self.form, rest = ("tables", words[1:]) if self.command == "topology" else (words[1], words[2:])
        parts = FILES_OF[self.form][: 2 if self.command == "topology" else 4]
        names, behind = rest[: len(parts)], rest[len(parts) :]
        has_word = behind[:1] == ["with"] and len(behind) > 1
        self.offered = self.command == "place" or has_word
        parts = parts + ["candidates"] * self.offered + ["certificate"] * (self.command == "verify")
        self.files = list(zip(parts, names + behind[has_word and self.command != "place" :]))


def contents_of(files):
    """The bytes of each part, in the order of the words."""
    found = {}
    for part, name in files:
        with open(name, "rb") as file:
            found[part] = file.read()
    for part, content in found.items():
        if len(content) > MOST_BYTES:
            raise model_reads.Fault(part, 0, "TooLong", [""] * 13 + ["TooLong"])
    return found


def case_of(words, contents):
    header = lambda part: [[word.encode() for word in model_reads.COLUMNS[part]]]
    table = lambda part: records_of(contents[part]) if part in contents else header(part)
    if words.form == "tables":
        return model_reads.read_tables([table(part) for part in model_reads.COLUMNS])
    read = model_reads.read_cdf if words.form == "cdf" else model_reads.read_matpower
    return model_reads.with_items(*read(contents[words.form]), table("meters"), table("candidates"))


def answer_lines(case, offered):
    """Answers each line of the input as it comes, and gives the status."""
    left = MOST_BYTES
    while True:
        line = sys.stdin.buffer.readline(left + 1)
        if len(line) > left:
            return 7
        if not line:
            return Text(case, Middle).status()
        left -= len(line)
        line = line.removesuffix(b"\n").removesuffix(b"\r")
        if line and not line.startswith(b"#"):
            sys.stdout.buffer.write(answer_line(case, offered, line, Middle).encode("utf-8", "surrogateescape"))
            sys.stdout.buffer.flush()


def answered(words):
    """The text and the status."""
    if not have_form(words):
        return usage(), 2
    if words[0] == "trial":
        return trial(int(words[1]), int(words[2]), None, Middle)[:2]
    words = Words(words)
    contents = contents_of(words.files)
    try:
        case = case_of(words, contents)
    except model_reads.Fault as fault:
        return str(fault), 3
    if words.command == "verify":
        return model_claims.verify(case, contents["certificate"], Middle)
    if words.command == "session":
        return "", answer_lines(case, words.offered)
    text = Text(case, Middle)
    sys.stderr.write(text.said(words.command))
    if words.command in STUDIES:
        return STUDIES[words.command](case, Middle)
    if words.command == "topology":
        return text.topology(), 0
    return text.ask(words.command), text.status(words.command)


def main():
    try:
        words = [word.encode("utf-8", "surrogateescape").decode("utf-8") for word in sys.argv[1:]]
    except UnicodeDecodeError:
        words = []
    try:
        text, status = answered(words)
    except model_reads.Fault as fault:
        text, status = str(fault), 3
    except OSError:
        text, status = "", 4
    sys.stdout.buffer.write(text.encode("utf-8", "surrogateescape"))
    sys.exit(status)


if __name__ == "__main__":
    main()
