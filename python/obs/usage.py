"""What is wrong with words that aren't a command of obs, in a sentence; and what is asked for by --help and --version.

`python3 -I python/obs/usage.py WORDS` says it on standard error, with status 11, and nothing of words that are right;
--help and --version are answered on standard output, with status 10, of which the callers make 0. It imports no other file of this
package. tools/usage calls it for ./obs, ./obs-large and ./look, and `python -m obs` as a module. The program itself prints the usage line
then, with status 2; where OBS_UNBUILT is set no program is there, and the line is printed here.
"""
from __future__ import annotations

import difflib
import os
import sys
import typing

FILES = {
    "tables": ["nodes", "switches", "branches", "meters"],
    "cdf": ["case", "meters"],
    "matpower": ["case", "meters"],
}
COMMANDS = {
    "report": "whether the meters suffice: counts and verdict, trees or bounds, islands, critical meters",
    "place": "the cheapest candidates that complete the meters",
    "session": "answers to lines of the standard input: edits and asks",
    "verify": "whether the claims of a certificate hold",
    "outages": "for each branch, whether the meters suffice if it trips",
    "pairs": "the meters that are critical together",
    "stations": "for each station, whether the others suffice if its meters are lost",
    "topology": "the bus of each node",
    "trial": "a generated case of N times N nodes, tried",
}
BEHIND = {"place": ["candidates"], "verify": ["certificate"]}
NUMBERS = ["no", "one", "two", "three", "four", "five", "six", "seven", "eight", "nine"]
# What the program prints of words that aren't a command.
LINE = (
    "usage: obs topology N S | report FORM | place FORM CAND | session FORM | verify FORM CERT | trial N SEED | outages FORM | pairs FORM"
    " | stations FORM\n"
)
HELP = """obs WORDS, where WORDS are
  report|outages|pairs|stations FORM   {report}; or
                                       what is left without a branch, two meters or a station
  place FORM CAND                      {place}
  session FORM [with CAND]             {session}
  verify FORM [with CAND] CERT         {verify}
  topology N S                         {topology}
  trial N SEED                         {trial}
FORM is: tables N S B M (nodes, switches, branches, meters), or cdf C M, or matpower C M (a case and its meters).
docs/GUIDE.md leads from your own tables to an answer. --help and --version are answered; other words that aren't a command end with status 2.
Before the words: python -m obs and ./look take --large, for larger networks, and python -m obs --json too.
""".format(**COMMANDS)


def said(words: typing.List[str]) -> str:
    """What is to be said of these words, or nothing."""
    wrong = why(words)
    return f"obs: {wrong}{'' if wrong.endswith('?') else '.'}\n" if wrong else ""


def asked(words: typing.List[str]) -> typing.Optional[str]:
    """What --help and --version ask for, or None."""
    if words[:1] in (["--help"], ["-h"]):
        return HELP
    return f"obs {version()}\n" if words[:1] == ["--version"] else None


def version() -> str:
    """That which versions.py beside this file names."""
    here = os.path.dirname(os.path.abspath(__file__))
    try:
        with open(os.path.join(here, "versions.py"), encoding="utf-8") as file:
            return next(line.split('"')[1] for line in file if line.startswith("VERSION = "))
    except (OSError, StopIteration):
        return "of a version that isn't known here"


def why(words: typing.List[str]) -> typing.Optional[str]:
    """What is wrong with these words, or None where they are a command with what it needs."""
    foreign = [word for word in words if not is_text(word)]
    if foreign:
        return f"a word isn't UTF-8, so obs sees no words at all: rename the file {printable(foreign[0])}"
    if not words:
        return "no command is given; --help says which there are"
    command, rest = words[0], words[1:]
    if command not in COMMANDS:
        return unknown("there is no command", command, COMMANDS)
    if command == "topology":
        return None if len(rest) == 2 else count_of(command, ["nodes", "switches"], rest)
    if command == "trial":
        return why_trial(rest)
    if not rest:
        return f"behind {command} stands the form of a case, tables, cdf or matpower, and then its files"
    if rest[0] not in FILES:
        return why_form(command, rest)
    return why_files(command, rest[0], rest[1:])


def why_trial(rest: typing.List[str]) -> typing.Optional[str]:
    if len(rest) != 2:
        return f"trial takes two numbers, the rows and the seed, and {given(len(rest))}"
    if not is_number(rest[0]) or not 1 <= int(rest[0]) <= 100:
        return f"the rows of a trial are a number from 1 to 100, and not {printable(rest[0])}"
    return None if is_number(rest[1]) else f"the seed of a trial is a number of 1 to 19 digits, and not {printable(rest[1])}"


def why_form(command: str, rest: typing.List[str]) -> str:
    """Of a word that is no form: a misspelt one, or a file where none is forgotten."""
    text = unknown(f"behind {command} stands tables, cdf or matpower, and then the files:", rest[0], FILES, "is none of these")
    if "mean" in text:
        return text
    count = len(rest) - len(BEHIND.get(command, []))
    if "with" in rest[1:]:
        count = rest.index("with")
    forms = [form for form, parts in FILES.items() if len(parts) == count]
    return text + (f". Is {' or '.join(forms)} forgotten?" if forms else "")


def why_files(command: str, form: str, rest: typing.List[str]) -> typing.Optional[str]:
    """Of words behind a form whose number is wrong."""
    parts = FILES[form] + BEHIND.get(command, [])
    if command in ("session", "verify"):
        at = len(FILES[form])
        if rest[at : at + 1] == ["with"] and (command == "session" or len(rest) > len(parts)):
            rest, parts = rest[:at] + rest[at + 1 :], FILES[form] + ["candidates"] + BEHIND.get(command, [])
    elif "with" in rest and len(rest) > len(parts):
        behind = "the candidates follow the files of the case" if command == "place" else f"{command} takes no candidates"
        return f"the word with stands in session and verify alone: {behind}"
    return None if len(rest) == len(parts) else count_of(f"{command} {form}", parts, rest)


def count_of(what: str, parts: typing.List[str], rest: typing.List[str]) -> str:
    *first, last = parts
    return f"{what} takes {NUMBERS[len(parts)]} files, {', '.join(first)} and {last}, and {given(len(rest))}"


def given(count: int) -> str:
    return f"{NUMBERS[count] if count < len(NUMBERS) else count} {'is' if count == 1 else 'are'} given" if count else "none is given"


def unknown(text: str, word: str, known: typing.Iterable[str], behind: str = "") -> str:
    near = difflib.get_close_matches(word.lower(), known, 1)
    meant = f"; do you mean {near[0]}?" if near else ""
    return " ".join([text, printable(word), behind]).rstrip() + meant


def is_number(word: str) -> bool:
    return word.isascii() and word.isdigit() and len(word) <= 19


def is_text(word: str) -> bool:
    try:
        word.encode("utf-8", "surrogateescape").decode("utf-8")
    except UnicodeDecodeError:
        return False
    return True


def printable(word: str) -> str:
    """A word as it can be shown on a terminal."""
    data = word.encode("utf-8", "surrogateescape").decode("utf-8", "backslashreplace")
    return "".join(c if c.isprintable() else c.encode("unicode_escape").decode() for c in data) or '""'


if __name__ == "__main__":
    given_words = [os.fsencode(word).decode("utf-8", "surrogateescape") for word in sys.argv[1:]]
    answer = asked(given_words)
    if answer is not None:
        sys.stdout.write(answer)
        sys.exit(10)
    wrong_words = said(given_words)
    sys.stderr.write(wrong_words)
    if wrong_words:
        sys.stdout.write(LINE if os.environ.get("OBS_UNBUILT") else "")
        sys.exit(11)
