#!/usr/bin/env python3
"""Runs the commands that the pages show, and compares what stands below each.

Usage: examples/pages.py PROGRAM

The pages are README.md and docs/*.md of the folder above. In their blocks a line `$ COMMAND` is a command, and the lines behind it, up
to the next, are what it prints. Two blanks end a printed line there: what follows is a remark. A line of two dots stands for any lines,
and a word of two dots for any word. The commands of a page are run from its top to its bottom in one shell, in a copy of the folder where
`obs`, and `look` too, are PROGRAM. Each is to end with 0 or 1, which are the statuses of an answer.
"""
import os
import re
import shutil
import subprocess
import sys
import tempfile

HERE = os.path.dirname(os.path.abspath(__file__))


def commands_of(page):
    """Pairs of a command and the lines that stand below it."""
    found, inside = [], False
    with open(page, encoding="utf-8") as text:
        for line in text.read().split("\n"):
            if not line.startswith("    "):
                inside = False
            elif line.startswith("    $ "):
                found.append((line[6:], []))
                inside = True
            elif inside:
                found[-1][1].append(re.split("  +", line[4:])[0])
    return found


def is_line(shown, line):
    shown, words = shown.split("\t"), line.split("\t")
    return len(shown) == len(words) and all(one in ("..", word) for one, word in zip(shown, words))


def is_shown(shown, lines):
    """Whether these lines can be shown so."""
    if not shown:
        return not lines
    if shown[0] == "..":
        return any(is_shown(shown[1:], lines[k:]) for k in range(len(lines) + 1))
    return bool(lines) and is_line(shown[0], lines[0]) and is_shown(shown[1:], lines[1:])


def run(page, program, commands, work):
    """What each command prints and says, and its status."""
    top, kept = f"{work}/top", f"{work}/kept"
    for folder in (top, kept):
        shutil.rmtree(folder, ignore_errors=True)
        os.mkdir(folder)
    for name in ("docs", "examples"):
        shutil.copytree(f"{HERE}/../{name}", f"{top}/{name}")
    for name in ("obs", "look"):
        os.symlink(program, f"{top}/{name}")
    script = [f'exec >"$1/{k}.out" 2>"$1/{k}.err"\n{one}\necho $? >"$1/{k}"\n' for k, (one, _) in enumerate(commands)]
    subprocess.run(["bash", "-c", "".join(script), page, kept], cwd=top, stdin=subprocess.DEVNULL)

    def content(name):
        with open(f"{kept}/{name}", encoding="utf-8", errors="surrogateescape") as file:
            return file.read()

    return [[content(f"{k}{end}") if os.path.exists(f"{kept}/{k}{end}") else "" for end in (".out", ".err", "")] for k in range(len(commands))]


def main():
    program = os.path.realpath(sys.argv[1])
    pages = [f"{HERE}/../README.md"] + sorted(f"{HERE}/../docs/{name}" for name in os.listdir(f"{HERE}/../docs") if name.endswith(".md"))
    count = failed = 0
    with tempfile.TemporaryDirectory() as work:
        for page in pages:
            commands = commands_of(page)
            for (command, shown), (printed, said, status) in zip(commands, run(page, program, commands, work)):
                count += 1
                if status.strip() in ("0", "1") and (not shown or is_shown(shown, printed.split("\n")[:-1])):
                    continue
                failed += 1
                print(f"{os.path.relpath(page, HERE)}: {command}\nstands there:", *shown, sep="\n")
                print(f"found, with status {status.strip() or 'none'}:\n{printed[:2000]}{said[:1000]}")
    print(f"{count} commands of {len(pages)} pages, {failed} failed")
    return 1 if failed or not count else 0


sys.exit(main())
