#!/usr/bin/env python3
"""Builds the bodies of the crates from obs_graph to obs_edit without their clauses, to time a change before it is proved.

Usage: tools/bodies.py FOLDER [again]

Writes into FOLDER a cargo workspace of these crates with no clause, no model and no ghost word, and builds it in a minute: the program is
FOLDER/bodies. With the word again it builds what stands there, so bodies can be changed in FOLDER/obs_*/src. Nothing is proved. In place
of obs_case and obs_script stand bodies/case.rs and bodies/script.rs, which read tables without quotes and find no fault. The program takes

    bodies report|place|outages|pairs|stations|session NODES SWITCHES BRANCHES METERS [CANDIDATES]

and a session's lines from standard input. On standard error it says how long it took, by kinds of lines too, how many searches were made,
and a number that all answers went into: two bodies that answer alike have the same. It needs cargo and rustc.
"""
import os
import re
import shutil
import subprocess
import sys

CRATES = (
    "obs_graph obs_forest obs_meter obs_assign obs_exchange obs_rankcut obs_critical obs_first obs_islands obs_placement obs_switch "
    "obs_network obs_kept obs_outage obs_pairs obs_station obs_repair obs_edit"
).split()
# What a plain file takes the place of, each a crate of its own.
STANDS = {"obs_case": "case.rs", "obs_script": "script.rs", "shim": "shim.rs"}
# No code, or nothing that these crates use.
UNUSED = {"obs_text", "obs_matroid"}
# Modules that go: laws are for proofs alone, and what `topology` takes memory for isn't measured here.
GONE = {"laws", "switched"}
HERE = os.path.dirname(os.path.abspath(__file__))
TOP = os.path.dirname(HERE)

STEPS = """use shim::Ledger;
pub struct Steps<L: Ledger> { pub count: u64, of: std::marker::PhantomData<L> }
impl<L: Ledger> Steps<L> {
    pub fn begin() -> Steps<L> { Steps { count: 0, of: std::marker::PhantomData } }
    pub fn tick(&mut self) { self.count += 1; }
}
pub fn turn<L: Ledger>(turns: u64, steps: &mut Steps<L>) -> u64 { steps.tick(); turns.saturating_add(1) }
"""

MANIFEST = '[package]\nname = "{}"\nversion = "0.1.0"\nedition = "2024"\n[dependencies]\n{}'
WORKSPACE = """[workspace]
resolver = "2"
members = ["*"]
exclude = ["target"]
[profile.release]
debug = 1
lto = "fat"
codegen-units = 1
"""

# What begins a block that goes: a clause, a part of a model, and the impls that only proofs need.
BLOCKS = [
    r"^[ \t]*(requires|ensures)\*?( \w+)? \{",
    r"^[ \t]*ghost \w+ = \{",
    r"^impl(<[^>]*>)? (Model|Drop) for [^{]*\{",
    r"^impl<T: Drop> From<AllocFailed<T>> for [^{]*\{",
]
# What is said in other words.
WORDS = [
    (r"^[ \t]*ghost use [^;]*;\n", ""),
    (r"^(pub )?(mod (%s);|use (%s)::.*;)\n" % (("|".join(sorted(GONE)),) * 2), ""),
    (r"#!\[tactic\(auto\)\]", ""),
    (r"#\[derive\(Drop\)\]\n", ""),
    (r"use std::marker::Model;\n", ""),
    (r"vec!\[in alloc;\s*", "shim::filled!["),
    (r"Vec::new\(alloc\)", "Vec::new()"),
    (r"(\.resize\(.*\))\?;", r"\1;"),
    (r"let Ok\(\(\)\) = (\w+\.resize\(.*\)) else \{[^}]*\};", r"\1;"),
    (r"use std::alloc::\{AllocError, (Global|AllocFailed)\};", r"use shim::{AllocError, \1};"),
    (r"use std::alloc::(\w+);", r"use shim::\1;"),
    (r"use std::sync::ledger::Ledger;", "use shim::Ledger;"),
]


def block_end(text, at):
    """Behind the brace that closes the one at this place."""
    depth = 0
    while True:
        depth += {"{": 1, "}": -1}.get(text[at], 0)
        at += 1
        if depth == 0:
            return at


def without_blocks(text, pattern):
    while found := re.search(pattern, text, flags=re.M):
        end = block_end(text, found.end() - 1)
        while end < len(text) and text[end] in ";\n":
            end += 1
        text = text[: found.start()] + text[end:]
    return text


def plain(text):
    for pattern in BLOCKS:
        text = without_blocks(text, pattern)
    for pattern, word in WORDS:
        text = re.sub(pattern, word, text, flags=re.M)
    return text


def needs():
    """The crates that each crate stands on."""
    lines = open(os.path.join(TOP, "crates.txt")).read().splitlines()
    pairs = [line.split(":", 1) for line in lines if ":" in line and not line.startswith("#")]
    return {name.split()[0]: below.split() for name, below in pairs}


def write(path, text):
    os.makedirs(os.path.dirname(path), exist_ok=True)
    with open(path, "w") as out:
        out.write(text)


def manifest(folder, name, below):
    lines = "".join(f'{other} = {{ path = "../{other}" }}\n' for other in below)
    write(os.path.join(folder, name, "Cargo.toml"), MANIFEST.format(name, lines))


def write_crate(folder, name, below):
    source = os.path.join(TOP, "crates", name, "src")
    for at, _, files in os.walk(source):
        for file in files:
            path = os.path.relpath(os.path.join(at, file), source)
            if not path.endswith(".rt") or path[:-3] in GONE or path.endswith("tests.rt"):
                continue
            text = plain(open(os.path.join(at, file)).read())
            if (name, path) == ("obs_assign", "steps.rt"):
                text = STEPS
            if path == "lib.rt":
                text = "#![allow(unused)]\n" + text
            write(os.path.join(folder, name, "src", path[:-3] + ".rs"), text)
    manifest(folder, name, ["shim"] + [other for other in below if other not in UNUSED])


def write_all(folder):
    below = needs()
    for name in CRATES:
        write_crate(folder, name, below[name])
    for name, file in STANDS.items():
        manifest(folder, name, [])
        write(os.path.join(folder, name, "src", "lib.rs"), open(os.path.join(HERE, "bodies", file)).read())
    used = "shim obs_case obs_script obs_assign obs_network obs_placement obs_kept obs_outage obs_pairs obs_station obs_edit".split()
    manifest(folder, "drive", used)
    write(os.path.join(folder, "drive", "src", "main.rs"), open(os.path.join(HERE, "bodies", "main.rs")).read())
    write(os.path.join(folder, "Cargo.toml"), WORKSPACE)


def main():
    if len(sys.argv) not in (2, 3) or sys.argv[2:] not in ([], ["again"]):
        sys.exit(__doc__)
    folder = os.path.abspath(sys.argv[1])
    if len(sys.argv) == 2:
        write_all(folder)
    subprocess.run(["cargo", "build", "-q", "--release", "--offline"], cwd=folder, check=True)
    shutil.copy(os.path.join(folder, "target", "release", "drive"), os.path.join(folder, "bodies"))
    print(os.path.join(folder, "bodies"))


if __name__ == "__main__":
    main()
