#!/usr/bin/env python3
"""Makes a laid out archive stand by itself: tools/archived.py FOLDER, for tools/archive; without a folder it tries that on a copy.

FOLDER has the pages, the examples, the tools and the package of a checkout. What works on the sources or needs the kit is taken out; in the
pages, lines that end with <!--kit-->, and what stands between <!--kit--> and <!--/kit-->, are for a checkout alone and go too. README.md
begins with what is there and what is left out. A page or a tool that still sends one to ./look or to building the library is a failure.
"""
import os
import re
import shutil
import subprocess
import sys
import tempfile
from pathlib import Path

HOME = Path(__file__).resolve().parent.parent
# Tools that read the sources or need the kit.
LEFT_OUT = """archive archived.py bare.py bodies bodies.py builds_check.py closure.py declarations.py definitions.py library
mutants prove run scopes.py slips slips.py statement statement.txt stating.py try_mutants""".split()
PAGES_LEFT_OUT = ["docs/COMMANDS.md", "docs/PROVING.md"]
# What has another name there.
NAMES = [
    ("    tools/library\n", ""),
    ("tools/library install", "./install"),
    ("`tools/library uninstall \"$HOME/obs\"`, or `./install --remove", "`./install --remove"),
    ("crates/obs_c/out/libobs.a", "libobs.a"),
    ("; tools/library builds and installs both", ""),
    ("builds what isn't built, and puts under", "puts under"),
    (" In an unpacked archive `./install \"$HOME/obs\"` does so.", ""),
]
SENT = re.compile(r"\./look|PWD/look|tools/(library|prove|run|archive)\b(?!_)")
# Where these words may stand: what is measured, why it is built so, what came when; and scripts that work in a checkout too.
FREE = ["docs/MEASURED.md", "docs/DECISIONS.md", "docs/MAP.md", "docs/STATEMENT.md", "CHANGELOG.md"]
# What stays of the sections that are for a checkout.
KEPT = ["**Which program is for whom**", "What it prints is **proved**"]
HEAD = """# obs {version}, for machines without the kit

| Here is | What it is |
|---|---|
| `obs`, `obs-large` | the programs |
| `libobs.so`, `libobs.a`, `include/obs.h` | the library, for [Python](docs/TOOLS.md#in-python), whose package in `python` finds it, and for [C](docs/TOOLS.md#in-c) |
| `install` | puts all of it under a prefix: `./install "$HOME/obs"` |
| `docs`, `crates`, `examples`, `share` | the pages, what each crate promises, real inputs with what is printed of them, the man page and completion |
| `tools` | [answers in sentences](docs/TOOLS.md#in-plain-sentences) and [pictures](docs/TOOLS.md#a-picture), and what tries the programs |
| `check` | `./check --quick` runs the examples, the commands of the pages and random cases, in some minutes |
| `VERSION`, `SHA256SUMS` | which state this is, what it needs, and the sum of each file |

**Left out** are the sources and the proofs (`src`, `specs` and `proofs` of each crate), to which some links of the pages lead nowhere here; and what works on them or needs the Rattle kit: `look`, the pages {pages}, and of `tools` {tools}. The repository has them, at the commit that `VERSION` names.

## Run it

    $ ./obs report cdf examples/ieee14/case.cdf examples/ieee14/meters.csv

**[Your own case](docs/GUIDE.md)** leads from your tables, a spreadsheet or a CDF file to an answer.

{kept}

## What obs does

"""


def stop(text):
    sys.exit(f"tools/archived.py: {text}")


def without_kit(text):
    text = re.sub(r"^.*<!--kit-->\n", "", text, flags=re.MULTILINE)
    text = re.sub(r"<!--kit-->.*?<!--/kit-->", "", text, flags=re.DOTALL)
    for name, there in NAMES:
        text = text.replace(name, there)
    return re.sub(r"\n{3,}", "\n\n", text)


def without_section(text, heading):
    """A page without the section of this heading."""
    start = text.index(f"## {heading}\n")
    return text[:start] + text[text.index("\n## ", start) + 1 :]


def archive_readme(text):
    version = re.search(r"^version: (.*)$", (HOME / "CITATION.cff").read_text(), re.MULTILINE)[1]
    _, _, body = text.partition("# obs\n\n")
    for heading in ("Run it", "Check it"):
        body = without_section(body, heading)
    code = lambda names: ", ".join(f"`{name}`" for name in names)
    kept = [re.search(rf"^{re.escape(begin)}.*$", text, re.MULTILINE)[0] for begin in KEPT]
    return HEAD.format(version=version, pages=code(PAGES_LEFT_OUT), tools=code(LEFT_OUT), kept="\n\n".join(kept)) + body


def stand_alone(folder):
    for name in [*PAGES_LEFT_OUT, *(f"tools/{name}" for name in LEFT_OUT)]:
        path = folder / name
        shutil.rmtree(path) if path.is_dir() else path.unlink()
    for page in [*folder.glob("*.md"), *folder.glob("docs/*.md"), *folder.glob("examples/*.md"), folder / "include/obs.h"]:
        page.write_text(without_kit(page.read_text(encoding="utf-8")), encoding="utf-8")
    readme = folder / "README.md"
    readme.write_text(archive_readme(readme.read_text(encoding="utf-8")), encoding="utf-8")
    sent = [f"{path.relative_to(folder)}: {line.strip()[:100]}" for path in pages_of(folder)
            for line in path.read_text(encoding="utf-8").split("\n") if SENT.search(line)]
    if sent:
        stop("these lines of an archive send one to what isn't there:\n" + "\n".join(sent))


def pages_of(folder):
    found = [*folder.glob("*.md"), *folder.glob("docs/*.md"), *folder.glob("examples/*.md"), *folder.glob("examples/*/*.run")]
    found += [path for path in folder.glob("share/**/*") if path.is_file()] + [folder / "include/obs.h"]
    return [path for path in found if str(path.relative_to(folder)) not in FREE]


def try_copy():
    """A copy without programs: what it says, where its links lead, its man page, and that Python finds a library which is put there."""
    with tempfile.TemporaryDirectory() as work:
        folder = Path(work) / "obs"
        folder.mkdir()
        for name in ("README.md", "CHANGELOG.md", "CITATION.cff", "check", "docs", "examples", "include", "python", "share", "tools"):
            copy = shutil.copytree if (HOME / name).is_dir() else shutil.copy
            copy(HOME / name, folder / name)
        stand_alone(folder)
        call = lambda *words: subprocess.run(words, cwd=folder, env=environment, stdout=subprocess.PIPE, stderr=subprocess.STDOUT, text=True)
        environment = {name: value for name, value in os.environ.items() if not name.startswith(("OBS", "PYTHON"))}
        environment["PYTHONPATH"] = "python"
        for one in (["tools/links.py"], ["tools/manual", "--check"]):
            done = call(sys.executable, *one)
            if done.returncode:
                stop(f"of an archive {one[0]} says: {done.stdout}")
        where = [sys.executable, "-c", "from obs import library; print(library.path())"]
        missing = call(*where).stdout
        (folder / "libobs.so").touch()
        found = call(*where).stdout
        if "LibraryMissing" not in missing or "tools/library" in missing or found != f"{folder / 'libobs.so'}\n":
            stop(f"in an archive Python says of its library: {missing}{found}")
    print("an archive stands by itself: its pages, its links, and where Python finds the library")


def main():
    if len(sys.argv) == 2:
        stand_alone(Path(sys.argv[1]).resolve())
    elif len(sys.argv) == 1:
        try_copy()
    else:
        stop("usage: tools/archived.py [FOLDER]")


main()
