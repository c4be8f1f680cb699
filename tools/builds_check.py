#!/usr/bin/env python3
"""Tries how tools/run and tools/prove build, in a made-up repository with a made-up prover that takes a moment for each crate.

Usage: tools/builds_check.py

Two calls at once prove each crate once. A program that is built answers while a library is built beside it, also where a build left its
log, and where `rt ci` has set it aside; after a change of a source it is built anew. Words that aren't a command are told on standard
error, and the output and the status are the program's, or, where none is built, as the program's, and nothing is proved. Nothing is proved, and no kit is needed.
"""
import os
import shutil
import subprocess
import sys
import tempfile
import time

HOME = os.path.dirname(os.path.dirname(os.path.abspath(__file__)))
CRATES = "low:\nside: low\nhigh: low\napp: high\nbook staticlib: side\n"
RATTLE = """#!/bin/bash
name= out=
while [ $# -gt 0 ]; do
  case $1 in --crate-name) name=$2 ;; -o) out=$2 ;; esac
  shift
done
echo "$name" >>"$FAKE/proved"
sleep "$(cat "$FAKE/slow-$name" 2>/dev/null || echo 0.2)"
echo "$name" >"$out"
echo "logic=proved"
"""
LINK = """#!/bin/bash
while [ $# -gt 0 ]; do case $1 in -o) out=$2 ;; esac; shift; done
printf '#!/bin/bash\\necho "answer $*"; echo "notice" >&2; [ "$1" = report ] || exit 2\\n' >"$out"
chmod +x "$out"
"""
RIGHT = ["report", "cdf", "a", "b"]


def fail(what, *more):
    print("builds_check.py:", what, *more)
    sys.exit(1)


def write(path, text, mode=0o644):
    os.makedirs(os.path.dirname(path), exist_ok=True)
    with open(path, "w") as file:
        file.write(text)
    os.chmod(path, mode)


class Place:
    """A repository of five crates, and a kit."""

    def __init__(self, folder):
        self.home, self.kit = f"{folder}/repo", f"{folder}/kit"
        for name in ("tools/run", "tools/prove", "tools/usage", "python/obs/usage.py", "python/obs/versions.py"):
            os.makedirs(os.path.dirname(f"{self.home}/{name}"), exist_ok=True)
            shutil.copy(f"{HOME}/{name}", f"{self.home}/{name}")
        os.mkdir(f"{self.home}/.git")
        write(f"{self.home}/crates.txt", CRATES)
        for line in CRATES.splitlines():
            name = line.split(":")[0].split()[0]
            write(f"{self.home}/crates/{name}/src/{'main' if name == 'app' else 'lib'}.rt", "")
        write(f"{self.kit}/KIT-ID", "made up")
        write(f"{self.kit}/bin/rt", f"#!/bin/bash\necho {self.kit}/START\n", 0o755)
        write(f"{self.kit}/bin/rattle", RATTLE, 0o755)
        write(f"{self.kit}/bin/rattle-link", LINK, 0o755)
        self.environment = {**os.environ, "PATH": f"{self.kit}/bin:{os.environ['PATH']}", "FAKE": folder, "OBS_JOBS": "2"}
        self.folder, self.program = folder, f"{self.home}/crates/app/out/app"

    def begin(self, *words):
        return subprocess.Popen([f"{self.home}/tools/{words[0]}", *words[1:]], env=self.environment, stdin=subprocess.DEVNULL,
                                stdout=subprocess.PIPE, stderr=subprocess.PIPE, text=True)

    def proved(self):
        """What was proved since it was asked last."""
        try:
            with open(f"{self.folder}/proved") as file:
                found = sorted(file.read().split())
            os.remove(f"{self.folder}/proved")
        except FileNotFoundError:
            found = []
        return found

    def answers(self, what, wanted, words=RIGHT):
        """That the program answers and these crates are proved for it. Gives what is said."""
        began, run = time.time(), self.begin("run", "app", *words)
        printed, said = run.communicate(timeout=60)
        if printed != f"answer {' '.join(words)}\n" or run.returncode != (0 if words[0] == "report" else 2):
            fail(what, "is answered so:", run.returncode, printed, said)
        if wanted is not None and self.proved() != wanted:
            fail(what, "proves other crates than", wanted)
        return said, time.time() - began


def ends(what, run):
    _, said = run.communicate(timeout=60)
    if run.returncode:
        fail(what, "ends with", run.returncode, said)


def try_unbuilt(place):
    """Words that aren't a command where no program is built."""
    done = subprocess.run([f"{place.home}/tools/run", "app", "report", "cdf", "a"], capture_output=True, text=True, env=place.environment)
    if done.returncode != 2 or not done.stdout.startswith("usage: obs ") or not done.stderr.startswith("obs: report cdf takes"):
        fail("words that aren't a command are answered, with no program, by", done.returncode, done.stdout, done.stderr)
    if place.proved():
        fail("words that aren't a command prove something")


def try_two(place):
    """Two first calls side by side, and a third for what one of them makes."""
    runs = [place.begin("prove", "book"), place.begin("run", "app", *RIGHT), place.begin("run", "app", *RIGHT)]
    for run in runs:
        ends("a call beside another", run)
    if place.proved() != ["app", "book", "high", "low", "side"]:
        fail("of calls side by side each crate isn't proved once")


def try_beside(place):
    """A built program while a library is built, that waits for a slow crate."""
    write(f"{place.folder}/slow-side", "4")
    write(f"{place.home}/crates/side/src/lib.rt", "changed\n")
    os.utime(f"{place.home}/crates/side/src/lib.rt", (1, 1))
    build = place.begin("prove", "book")
    while not os.path.exists(f"{place.folder}/proved"):
        time.sleep(0.05)
    if not os.path.exists(f"{place.home}/build-book.log"):
        fail("a build of book has no log of its own")
    _, took = place.answers("a built program beside a build", None)
    if took > 2 or build.poll() is not None:
        fail("a built program waits for a build that it doesn't need")
    ends("the build beside it", build)
    if place.proved() != ["book", "side"]:
        fail("a change of side proves other crates")


def try_left(place):
    """A log that a build left, and a program that `rt ci` has set aside."""
    write(f"{place.home}/build-app.log", "")
    write(f"{place.home}/build.log", "")
    place.answers("a built program beside logs", [])
    os.makedirs(f"{place.home}/.git/rt-aside")
    os.rename(f"{place.home}/crates/app/out", f"{place.home}/.git/rt-aside/app")
    place.answers("a program that is set aside", [])
    write(f"{place.home}/crates/high/src/lib.rt", "changed\n")
    place.answers("a program that is set aside, and older than a source", ["app", "high"])


def try_words(place):
    said, _ = place.answers("a word too few", [], ["report", "cdf", "a"])
    if said != "obs: report cdf takes two files, case and meters, and one is given.\nnotice\n":
        fail("of a word too few is said:", said)
    for word, text in [("--version", "obs 0."), ("--help", "obs WORDS, where WORDS are\n")]:
        done = subprocess.run([f"{place.home}/tools/run", "app", word], capture_output=True, text=True)
        if done.returncode or done.stderr or not done.stdout.startswith(text):
            fail(word, "is answered by", done.returncode, done.stdout, done.stderr)
    if place.answers("right words", [])[0] != "notice\n":
        fail("of right words something is said")


def main():
    with tempfile.TemporaryDirectory() as folder:
        place = Place(folder)
        for one in (try_unbuilt, try_two, try_beside, try_left, try_words):
            one(place)
    print("builds: side by side, beside a library's, after others, and words that are no command")


main()
