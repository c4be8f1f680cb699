#!/usr/bin/env python3
"""Finds the least stack with which the program answers.

Usage: tools/stack.py PROGRAM [ROWS]

For each run of all commands, over examples/own and over a chain of ROWS (20000) nodes with as many meters and candidates, it halves the
limit of the stack between 16 KiB and 8 MiB until it knows to 4 KiB from where on the run ends with a status and not by a signal. What
the words and the environment take lies on the stack too, so each run is made with an empty environment, and the first also with one of
64 KiB. Outages of the chain, which take a minute a run, are left out.
"""
import os
import resource
import subprocess
import sys
import tempfile

from model_studies import STUDIES

OWN = os.path.join(os.path.dirname(os.path.abspath(__file__)), "..", "examples", "own")
TABLES = ["nodes.csv", "switches.csv", "branches.csv", "meters.csv"]
ASKS = b"trip a\nlose m0\nstatus\ntree\nbound\nislands\ncritical\ncert\nreport\nplace\n"


def write_chain(folder, rows):
    heads = ["node,source", "switch,from,to,closed", "branch,from,to,inservice", "meter,kind,at,inservice", "candidate,kind,at,price"]
    lines = [
        [f"n{v},{int(v == 0)}" for v in range(rows)],
        [f"s{v},n{v},n{v + 1},0" for v in range(rows - 1)],
        [f"b{v},n{v},n{v + 1},1" for v in range(rows - 1)],
        [f"m{v},injection,n{v},1" for v in range(rows)],
        [f"c{v},flow,b{v},{v % 1000}" for v in range(rows - 1)],
    ]
    for name, head, some in zip(TABLES + ["candidates.csv"], heads, lines):
        with open(os.path.join(folder, name), "w") as out:
            out.write("\n".join([head, *some]) + "\n")


def ends(program, folder, words, given, kilobytes, environment):
    """Whether the run ends with a status under a stack of so many KiB. Where it can't even start it doesn't."""
    limit = lambda: resource.setrlimit(resource.RLIMIT_STACK, (kilobytes << 10, kilobytes << 10))
    quiet = subprocess.DEVNULL
    try:
        run = subprocess.run([program, *words], cwd=folder, input=given, stdout=quiet, stderr=quiet, env=environment, preexec_fn=limit)
    except OSError:
        return False
    return run.returncode >= 0


def least(*run, environment={}):
    low, high = 4, 2048
    if not ends(*run, 4 * high, environment):
        return "more than 8192"
    while high - low > 1:
        middle = (low + high) // 2
        low, high = (low, middle) if ends(*run, 4 * middle, environment) else (middle, high)
    return 4 * high


def main():
    program, rows = os.path.abspath(sys.argv[1]), int((sys.argv[2:] or ["20000"])[0])
    case = ["tables", *TABLES]
    with tempfile.TemporaryDirectory() as full:
        write_chain(full, rows)
        words = ["report", *case]
        print(f"{least(program, OWN, words, b'', environment={'X': 'x' * 65536})}\treport, examples/own, an environment of 64 KiB")
        for name, folder in [("examples/own", OWN), (f"a chain of {rows} nodes", full)]:
            runs = [(["topology", *TABLES[:2]], b""), (words, b""), (["place", *case, "candidates.csv"], b"")]
            runs.append((["session", *case, "with", "candidates.csv"], ASKS))
            runs += [([study, *case], b"") for study in STUDIES if study != "outages" or folder == OWN]
            for some, given in runs:
                print(f"{least(program, folder, some, given)}\t{some[0]}, {name}", flush=True)
        plan = subprocess.run([program, "place", *case, "candidates.csv"], cwd=full, stdout=subprocess.PIPE).stdout
        with open(os.path.join(full, "plan.txt"), "wb") as out:
            out.write(plan)
        print(f"{least(program, full, ['verify', *case, 'with', 'candidates.csv', 'plan.txt'], b'')}\tverify, a chain of {rows} nodes")
        print(f"{least(program, full, ['trial', '10', '1'], b'')}\ttrial 10")


main()
