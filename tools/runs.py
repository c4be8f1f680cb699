"""Runs the program over files in a folder, and holds what it answers against what is wanted.

Where the program's name ends with .so it is the library for C: then its one call answers in the place of the program.
"""
import collections
import importlib.util
import os
import shlex
import shutil
import subprocess
import sys
import tempfile
import time

from by_library import Library

MOST_SECONDS = 600
KEPT = os.path.normpath(os.path.join(os.path.dirname(os.path.abspath(__file__)), "..", "differs"))


def words_usage():
    """What the callers of the program say of words: python/obs/usage.py."""
    path = os.path.join(os.path.dirname(os.path.abspath(__file__)), "..", "python", "obs", "usage.py")
    spec = importlib.util.spec_from_file_location("words_usage", path)
    module = importlib.util.module_from_spec(spec)
    spec.loader.exec_module(module)
    return module


USAGE = words_usage()


class Runs:
    """Runs the program in a folder, and counts the cases. The first that differs is kept in the folder `kept`, if there is one."""

    def __init__(self, program, folder, kept=None):
        if not os.access(program, os.X_OK):
            sys.exit(f"there is no program {program}")
        self.program, self.folder, self.kept = os.path.abspath(program), folder, kept
        self.library = Library(self.program, folder) if program.endswith(".so") else None
        self.count = collections.Counter()

    def write(self, name, content):
        with open(os.path.join(self.folder, name), "wb") as file:
            file.write(content)

    def run(self, words, given=b""):
        """What is written, and the status, or a word where the run doesn't end."""
        if self.library:
            return self.library.run(words, given)
        try:
            done = subprocess.run([self.program, *words], cwd=self.folder, input=given, capture_output=True, timeout=MOST_SECONDS)
        except subprocess.TimeoutExpired:
            return b"", "none: it didn't end"
        self.said = done.stderr
        return done.stdout, done.returncode

    def compare(self, number, kind, words, text, status, given=b"", said=None):
        """Runs the words; what is written, the status and, where it is given, what is said are to be these."""
        found = self.run(words, given)
        last = text.rstrip("\n").split("\t")[-1] if text.startswith(("fault", "flaw")) else "answered"
        self.count[f"{kind}: {last}"] += 1
        wanted = (text.encode("utf-8", "surrogateescape"), status)
        if found != wanted:
            self.differs(number, words, given, found, wanted)
        texts = [os.fsencode(word).decode("utf-8", "surrogateescape") for word in words]
        if bool(USAGE.said(texts)) != (wanted == (USAGE.LINE.encode(), 2)):
            self.differs(number, words, given, (b"the callers say: " + USAGE.said(texts).encode("utf-8", "backslashreplace"), "says"), wanted)
        if said is not None and not self.library and self.said != said.encode():
            self.differs(number, words, given, (self.said, "says"), (said.encode(), "says"))

    def alike(self, number, kind, words, given, found, wanted):
        """Counts a case of which two answers are to be the same, and what was run last for the one that is judged."""
        self.count[kind] += 1
        if found != wanted:
            self.differs(number, words, given, found, wanted)

    def differs(self, number, words, given, found, wanted):
        """Says what differs, keeps the files of the case, and ends."""
        print(f"case {number}: {words}\n found {found[1]} {found[0][:2000]}\nwanted {wanted[1]} {wanted[0][:2000]}")
        if self.kept:
            folder = os.path.join(self.kept, str(number))
            shutil.rmtree(folder, ignore_errors=True)
            shutil.copytree(self.folder, folder)
            line = shlex.join(os.fsdecode(word) for word in words)
            files = {"words": os.fsencode(line) + b"\n", "input": given, "found": found[0], "wanted": wanted[0]}
            for name, content in files.items():
                with open(os.path.join(folder, f"{name}.txt"), "wb") as file:
                    file.write(content)
            print(f"kept in {folder}: its files, words.txt, input.txt, found.txt and wanted.txt")
        sys.exit(1)

    def summary(self):
        for kind, found in sorted(self.count.items()):
            print(f"{found}\t{kind}")


def number_of(word):
    """A number, or that which the first digits of the commit's name are."""
    if word != "commit":
        return int(word)
    here = os.path.dirname(os.path.abspath(__file__))
    named = subprocess.run(["git", "rev-parse", "--short=8", "HEAD"], cwd=here, capture_output=True, text=True).stdout.strip()
    return int(named[:8], 16) if named else 0


def run_cases(compare_case):
    """Compares the cases that the words of the call ask for: PROGRAM [FIRST [COUNT [SECONDS]]]."""
    program, first, count, seconds = sys.argv[1], *(sys.argv[2:] + ["0", "1000", "inf"][len(sys.argv) - 2 :])
    first, last = number_of(first), time.monotonic() + float(seconds)
    print(f"{os.path.basename(sys.argv[0])}: cases from number {first} on", flush=True)
    with tempfile.TemporaryDirectory() as folder:
        runs, number = Runs(program, folder, KEPT), first
        while number < first + int(count) and time.monotonic() < last:
            compare_case(number, runs)
            number += 1
    runs.summary()
    print(f"{number - first} of {count} cases compared, all alike")
