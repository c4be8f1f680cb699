#!/usr/bin/env python3
"""Tries slips in specs/: each is to be refused by the evaluations of obs_worked alone, before any body is looked at.

Usage: tools/slips.py [NAME..]

The folder tools/slips has them, each as an edit with its path from the top. They are tried one after the other in a temporary folder, which has
the evaluations, the definitions that these need and the types that those speak of, and no function. Without a slip all evaluations must be proved
there. It says of each slip which ones refuse it. The status is 1 where none does, or where the definitions can't be read any more.
"""
import os
import re
import shutil
import subprocess
import sys
import tempfile

from bare import bare_copy

TOP = os.path.dirname(os.path.dirname(os.path.abspath(__file__)))
CRATE = "obs_worked"


def dependencies(top):
    """The crates of crates.txt, each with what it stands on."""
    found = {}
    with open(os.path.join(top, "crates.txt"), encoding="utf-8") as file:
        for line in file:
            name, _, rest = line.partition(":")
            if rest and not name.startswith("#"):
                found[name.split()[0]] = rest.split()
    return found


def below(crates, name, found):
    """The crates on which one stands, each behind those on which it stands itself."""
    for other in crates[name]:
        if other in crates and other not in found:
            below(crates, other, found)
            found.append(other)
    return found


def words_for(top, kit):
    """The words by which the prover checks the evaluations over the copied crates as sources."""
    crates = dependencies(top)
    lower = below(crates, CRATE, [])
    of_kit = sorted({"std", "core"} | {name for crate in lower + [CRATE] for name in crates[crate] if name not in crates})
    words = [os.path.join(kit, "bin", "rattle"), "check", "--crate-name", CRATE, "src/lib.rt"]
    for name in of_kit:
        words += ["--extern", f"{name}={kit}/rlibs/{name}.rlib"]
    words += ["-L", f"dependency={kit}/rlibs"]
    for name in lower:
        uses = ",".join(dict.fromkeys(["core", "std"] + crates[name]))
        words += ["--lib", f"{name}:{uses}={top}/crates/{name}/src/lib.rt"]
    words += ["--antt-project", f"{kit}/rattle/logic/antt-project.json", "--logic-built", f"{kit}/logic_built", "--jobs", "1"]
    words += ["--incremental", os.path.join(top, "kept")]
    modules = re.findall(r"^pub mod (\w+);", open(f"{top}/crates/{CRATE}/src/lib.rt", encoding="utf-8").read(), re.M)
    return words + [word for module in modules for word in ("--only", module)]


class Slip:
    """An edit of one line of a file, which it puts in and takes back."""

    def __init__(self, top, name):
        self.name = name
        with open(os.path.join(TOP, "tools", "slips", name + ".edit"), encoding="utf-8") as file:
            lines = dict(line.rstrip("\n").split(": ", 1) for line in file if line.strip())
        self.path = os.path.join(top, lines["file"])
        self.old, self.new = lines["old"], lines["new"]

    def put(self):
        with open(self.path, encoding="utf-8") as file:
            self.text = file.read()
        if self.text.count(self.old + "\n") != 1:
            raise ValueError(f"{self.name}: its old line doesn't stand once in its file")
        self.write(self.text.replace(self.old + "\n", self.new + "\n"))

    def write(self, text):
        with open(self.path, "w", encoding="utf-8") as file:
            file.write(text)


def check(top, words):
    """Checks the copy: the evaluations that aren't proved, those that are, and the errors in definitions."""
    ran = subprocess.run(words, cwd=os.path.join(top, "crates", CRATE), stdout=subprocess.PIPE, stderr=subprocess.STDOUT, text=True, errors="replace")
    refused = re.findall(rf"^fn {CRATE}::(\S+): (?:not proved|no proof|could not tell)", ran.stdout, re.M)
    proved = re.findall(rf"^fn {CRATE}::(\S+): proved", ran.stdout, re.M)
    broken = re.findall(r"^\S*/specs/\S+: error.*", ran.stdout, re.M)
    if not refused and not proved:
        broken.append(ran.stdout[-2000:])
    return refused, proved, broken


def try_slip(top, words, name):
    """Whether evaluations refuse a slip, said in a line."""
    slip = Slip(top, name)
    slip.put()
    refused, _, broken = check(top, words)
    slip.write(slip.text)
    if broken:
        print(f"{name}: no slip, since the definitions can't be read:\n{broken[0]}", flush=True)
    elif refused:
        print(f"{name}: refused by {', '.join(refused)}", flush=True)
    else:
        print(f"{name}: NOT REFUSED", flush=True)
    return bool(refused) and not broken


def main(names):
    rt = shutil.which("rt")
    if rt is None:
        print("the kit's rt isn't on the path", file=sys.stderr)
        return 70
    kit = os.path.dirname(os.path.dirname(os.path.realpath(rt)))
    names = names or sorted(name[:-5] for name in os.listdir(os.path.join(TOP, "tools", "slips")) if name.endswith(".edit"))
    with tempfile.TemporaryDirectory() as top:
        bare_copy(TOP, CRATE, top)
        words = words_for(top, kit)
        refused, proved, broken = check(top, words)
        if refused or broken:
            print("without a slip not all is proved:", *refused, *broken)
            return 1
        print(f"without a slip: {len(proved)} evaluations are proved", flush=True)
        results = [try_slip(top, words, name) for name in names]
    print(f"{sum(results)} of {len(names)} refused")
    return 0 if all(results) else 1


if __name__ == "__main__":
    sys.exit(main(sys.argv[1:]))
