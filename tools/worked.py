#!/usr/bin/env python3
"""Compares answers with those of tools/worked.txt, which were worked out by hand.

Usage: tools/worked.py [PROGRAM]

Each case there is answered by both models (tools/model.py and tools/model_middle.py), and by PROGRAM where it is given. It says each
answer that is otherwise; the status is 1 then.
"""
import os
import subprocess
import sys
import tempfile

import model_claims
import model_reads
from answer import records_of
from model import Network
from model_middle import Middle
from model_studies import STUDIES
from model_text import Text, session

HERE = os.path.dirname(os.path.abspath(__file__))
PARTS = list(model_reads.COLUMNS)


def blocks(name):
    """The cases of a file, each with its title, its tables by their parts, and its commands with the lines behind them."""
    found = []
    with open(os.path.join(HERE, name), encoding="utf-8") as file:
        for line in file.read().split("\n"):
            word, _, rest = line.partition(" ")
            if word == "=":
                found.append((rest, {}, {}, []))
            elif word == "header":
                part, _, columns = rest.partition(" ")
                found[-1][1][part] = columns
            elif word in PARTS:
                found[-1][2][word] = rest.split("; ")
            elif word == ">":
                found[-1][3].append((rest, []))
            elif line and word != "#" and found:
                found[-1][3][-1][1].append(line)
    return found


def contents_of(headers, rows):
    """The bytes of the five tables."""
    own = {part: ",".join(columns + model_reads.FURTHER.get(part, [])) for part, columns in model_reads.COLUMNS.items()}
    return {part: "\n".join([headers.get(part, own[part]), *rows.get(part, []), ""]).encode() for part in PARTS}


def by_model(network_of, contents, command, given, offered):
    """The text and the status, by a model."""
    without = contents | {"candidates": b"candidate,kind,at,price\n"}
    try:
        case = model_reads.read_tables([records_of((contents if offered else without)[part]) for part in PARTS])
    except model_reads.Fault as fault:
        return str(fault), 3
    if command == "session":
        return session(case, offered, given, network_of)
    if command == "verify":
        return model_claims.verify(case, given, network_of)
    if command in STUDIES:
        return STUDIES[command](case, network_of)
    text = Text(case, network_of)
    return (text.topology(), 0) if command == "topology" else (text.ask(command), text.status(command))


def by_program(program, contents, command, given, offered):
    """The text and the status, by the program."""
    with tempfile.TemporaryDirectory() as folder:
        for name, content in [*contents.items(), ("claims", given)]:
            with open(os.path.join(folder, name), "wb") as file:
                file.write(content)
        words = [command, *PARTS[:2]] if command == "topology" else [command, "tables", *PARTS[:4]]
        words += [PARTS[4]] if command == "place" else ["with", PARTS[4]] if offered else []
        run = subprocess.run([program, *words, *(["claims"] if command == "verify" else [])], cwd=folder, input=given, capture_output=True)
    return run.stdout.decode(), run.returncode


def is_shown(shown, lines):
    """Whether these are the lines, where two dots stand for any."""
    if not shown:
        return not lines
    if shown[0] == "..":
        return any(is_shown(shown[1:], lines[k:]) for k in range(len(lines) + 1))
    return lines[:1] == shown[:1] and is_shown(shown[1:], lines[1:])


def words_of(text):
    """The command, what it is given, and whether it has the table of candidates."""
    command, _, rest = text.partition(" ")
    offered = rest.startswith("with ") or command == "place"
    rest = rest.removeprefix("with ")
    lines = rest.split("; ") if command == "session" else rest.replace(" ", "\t").split("\t/\t")
    return command, "".join(line + "\n" for line in lines if rest).encode(), offered


def main():
    answers = {"the model that tries everything": lambda *some: by_model(Network, *some)}
    answers["the model by intersection"] = lambda *some: by_model(Middle, *some)
    if len(sys.argv) > 1:
        answers["the program"] = lambda *some: by_program(os.path.abspath(sys.argv[1]), *some)
    count = failed = 0
    for title, headers, rows, commands in blocks("worked.txt"):
        contents = contents_of(headers, rows)
        for text, lines in commands:
            *shown, status = " ".join(lines[:-1]).split(" / ") + [lines[-1]]
            for who, answer in answers.items():
                found, ended = answer(contents, *words_of(text))
                count += 1
                if not is_shown(shown, found.replace("\t", " ").split("\n")[:-1]) or status != f"status {ended}":
                    failed += 1
                    print(f"{title}: {text}, by {who}\n found {found!r} status {ended}\nwanted {' / '.join(shown)} {status}")
    print(f"{count} answers, {failed} otherwise")
    sys.exit(failed > 0 or not count)


main()
