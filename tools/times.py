#!/usr/bin/env python3
"""Measures the program over full tables of shapes, and prints a row of docs/MEASURED.md for each.

Usage: tools/times.py PROGRAM [--studies] [SHAPE..]
       tools/times.py PROGRAM [--studies] FOLDER/METERS.csv..

The shapes are those of tools/shapes.py, all where none is named. Of each it gives the user time of `report`, of `place` with all meters and
with a tenth of them, and of `topology`, or with --studies that of `outages`, `pairs` and `stations`, and the most memory of these. Of a
table of meters with the other tables beside it in a folder, as tools/networks.py writes them, it gives those of `report` and of `topology`, or
of the studies. A run that has taken 100 seconds of processor time is ended, one of a study after 300.
"""
import os
import resource
import sys
import tempfile

import shapes
from model_studies import STUDIES

MOST_SECONDS, MOST_OF_STUDIES = 100, 300


def measure(program, folder, words):
    """The seconds of user time and the megabytes at the peak, or no seconds where the run took too long."""
    most = MOST_OF_STUDIES if words[0] in STUDIES else MOST_SECONDS
    child = os.fork()
    if child == 0:
        resource.setrlimit(resource.RLIMIT_CPU, (most, most))
        os.chdir(folder)
        nothing = os.open(os.devnull, os.O_RDWR)
        for stream in range(3):
            os.dup2(nothing, stream)
        os.execv(program, [program, *words])
    _, status, used = os.wait4(child, 0)
    return (used.ru_utime if os.WIFEXITED(status) and os.WEXITSTATUS(status) < 2 else None), used.ru_maxrss / 1024


def shown(seconds):
    if seconds is None:
        return "not ended"
    return "below 0.01 s" if seconds < 0.01 else f"{seconds:.2f} s" if seconds < 1 else f"{seconds:.1f} s"


TABLES = ["nodes.csv", "switches.csv", "branches.csv"]
COMMANDS = {
    "`report`": ["report", "tables", *TABLES, "meters.csv"],
    "`place`, all meters": ["place", "tables", *TABLES, "meters.csv", "candidates.csv"],
    "`place`, few meters": ["place", "tables", *TABLES, "few.csv", "candidates.csv"],
    "`topology`": ["topology", *TABLES[:2]],
}
# Those over the tables of a folder.
COMMANDS_OF_FOLDERS = {
    "`report`": ["report", "tables", *TABLES, "meters.csv"],
    "`topology`": COMMANDS["`topology`"],
}
COMMANDS_OF_STUDIES = {f"`{study}`": [study, "tables", *TABLES, "meters.csv"] for study in STUDIES}


def row(program, name, folder, commands):
    found = [measure(program, folder, words) for words in commands.values()]
    megabytes = [most for _, most in found]
    return f"| `{name}` | {' | '.join(shown(seconds) for seconds, _ in found)} | {max(megabytes):.0f} MB |"


def folder_row(program, path, commands):
    """The row of a table of meters with the other tables beside it."""
    folder, meters = os.path.split(os.path.abspath(path))
    named = {head: [meters if word == "meters.csv" else word for word in words] for head, words in commands.items()}
    return row(program, f"{os.path.basename(folder)}/{meters[:-4]}", folder, named)


def main():
    if len(sys.argv) < 2:
        sys.exit(__doc__)
    program, names = os.path.abspath(sys.argv[1]), sys.argv[2:]
    of_studies = names[:1] == ["--studies"]
    names = names[1:] if of_studies else names
    of_folders = bool(names) and all(name.endswith(".csv") for name in names)
    commands = COMMANDS_OF_STUDIES if of_studies else COMMANDS_OF_FOLDERS if of_folders else COMMANDS
    print(f"| Tables | {' | '.join(commands)} | Memory |\n|{'---|' * (len(commands) + 2)}", flush=True)
    if of_folders:
        for path in names:
            print(folder_row(program, path, commands), flush=True)
        return
    for name in names or shapes.SHAPES:
        with tempfile.TemporaryDirectory() as folder:
            shapes.write(name, folder)
            print(row(program, name, folder, commands), flush=True)


if __name__ == "__main__":
    main()
