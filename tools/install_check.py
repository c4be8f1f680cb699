#!/usr/bin/env python3
"""Installs obs as other software is, tries what was installed, and takes it away again: tools/install_check.py.

It says what was tried and what was passed over, and ends with 1 where something is otherwise. Nothing is built and no network is asked:

- the wheel, `pip install ./python` in a new virtual environment: it has the library and the types, and leaves no rest; `python -m obs`
  prints, says and ends in all examples of the program as these show it, but says nothing beside a whole answer; and frames go in and out by
  a stand-in of pandas
- what tools/install puts under a new prefix: the programs, the header and obs.pc, by which the examples in C and C++ are built and run; the
  man page, and that nothing is left where it is taken away. The page is what the pages say, and all say the same version
"""
import os
import re
import shutil
import subprocess
import sys
import tempfile
import types
from pathlib import Path

HOME = Path(__file__).resolve().parent.parent
EXAMPLES = HOME / "examples"
IS_CHECKOUT = (HOME / "crates.txt").exists()
LIBRARY = HOME / ("crates/obs_c/out/libobs.so" if IS_CHECKOUT else "libobs.so")
LARGE = HOME / ("crates/obs_large/out/obs_large" if IS_CHECKOUT else "obs-large")
# Commands of other tools, and such as give too little memory for Python itself.
OTHER = re.compile(r"\b(explain|draw|talk|usage|watch|convert|rank|islands|lines|ulimit|prlimit|budgets)\b|^tables\b")
# What the program says beside a whole answer, and python -m obs doesn't.
BESIDE = re.compile("obs: (no bus is energised|buses that are energised|buses at which more than one)")


class Failed(Exception):
    """Something is otherwise than it should be."""


def agree(what, found, wanted):
    if found != wanted:
        raise Failed(f"{what}\n found {found!r}"[:3000] + f"\nwanted {wanted!r}"[:3000])


def call(*words, folder=HOME, **environment):
    """Runs a command that must do well, and gives what it prints. The Python module's variables are none of its own."""
    own = {name: value for name, value in os.environ.items() if name not in ("PYTHONPATH", "OBS_LIBRARY", "PIP_FIND_LINKS")}
    own.update(environment, PIP_CONFIG_FILE=os.devnull, PIP_NO_INDEX="1", PIP_DISABLE_PIP_VERSION_CHECK="1")
    done = subprocess.run([str(word) for word in words], cwd=folder, env=own, stdin=subprocess.DEVNULL, capture_output=True, text=True)
    if done.returncode:
        raise Failed(f"{' '.join(map(str, words))}: status {done.returncode}\n{done.stdout}{done.stderr}"[:3000])
    return done.stdout


def paths(folder):
    return sorted(str(path.relative_to(folder)) for path in folder.rglob("*") if "__pycache__" not in path.parts)


def try_example(file, path, is_python=False):
    """Runs the commands of a file NAME.run with programs that stand in the folders of this path, in a copy of the examples."""
    head, _, printed = file.read_text(encoding="utf-8", errors="surrogateescape").partition("prints\n")
    part = lambda word: [line[len(word) + 1 :] for line in head.split("\n") if line.startswith(f"{word} ")]
    with tempfile.TemporaryDirectory() as work:
        shutil.copytree(EXAMPLES, f"{work}/examples", symlinks=True)
        how = {"cwd": f"{work}/examples/{file.parent.name}", "env": {**os.environ, "PATH": path}, "stdin": subprocess.DEVNULL}
        done = subprocess.run(["bash", "-c", "\n".join(part("$"))], capture_output=True, **how)
    found = [stream.decode("utf-8", "surrogateescape") for stream in (done.stdout, done.stderr)]
    said = [line for line in part("says") if not (is_python and BESIDE.match(line))]
    wanted = [printed, "".join(f"{line}\n" for line in said)]
    # Of words that aren't a command python -m obs says first what is wrong with them.
    if done.returncode == 2 and found[1].endswith(wanted[1]):
        found[1] = wanted[1]
    agree(f"{file.relative_to(HOME)} by {path.split(':')[0]}", [done.returncode, *found], [int(part("status")[0]), *wanted])


def try_wheel(work):
    """The wheel, in a virtual environment of its own."""
    place = work / "venv"
    call(sys.executable, "-m", "venv", place)
    python, before = place / "bin/python", paths(place)
    call(python, "-m", "pip", "install", "--no-build-isolation", HOME / "python")
    call(python, "-I", __file__, "inside", place, folder=work)
    program = work / "bin/obs"
    program.parent.mkdir()
    program.write_text(f'#!/bin/sh\nexec {place}/bin/python -I -m obs "$@"\n')
    program.chmod(0o755)
    count = 0
    for file in sorted(EXAMPLES.glob("*/*.run")):
        commands = re.findall(r"^\$ (.*)$", file.read_text(encoding="utf-8", errors="surrogateescape"), re.M)
        if file.parent.name not in ("c", "cpp", "python") and not any(OTHER.search(command) for command in commands):
            try_example(file, f"{program.parent}:{os.environ['PATH']}", True)
            count += 1
    if count < 40:
        raise Failed(f"there are only {count} examples for the wheel")
    call(python, "-m", "pip", "uninstall", "-y", "obs")
    agree("what is left of the wheel", paths(place), before)
    print(count, "examples by the wheel, python -m obs")


class Frame:
    """As much of a frame of pandas as the package asks for, in and out."""

    def __init__(self, rows, columns):
        self.rows, self.columns = rows, columns

    def to_dict(self, orient):
        agree("the orient of a frame", orient, "records")
        return [dict(zip(self.columns, row)) for row in self.rows]


def try_inside(place):
    """What is done within the environment: the package and its library are those of the wheel."""
    import obs
    from obs import library

    for file in (obs.__file__, library.path(), Path(obs.__file__).parent / "py.typed"):
        if not Path(file).exists() or Path(place).resolve() not in Path(file).resolve().parents:
            raise Failed(f"{file} isn't of the wheel")
    agree("the version", (obs.version(), obs.__version__), (version(), version()))
    names = ("nodes", "switches", "branches", "meters")
    case = obs.tables(*(EXAMPLES / f"short/{name}.csv" for name in names))
    answer = obs.report(case)
    agree("a report", (answer.counts.rank, answer.counts.needed, answer.observable), (3, 5, False))
    rows = [[line.split(",") for line in (EXAMPLES / f"short/{name}.csv").read_text().split("\n") if line] for name in names]
    framed = obs.tables(*(Frame(table[1:], table[0]) for table in rows))
    agree("a case of frames", str(obs.report(framed)), str(answer))
    try:
        obs.frame(answer)
        raise Failed("there is pandas in a new environment")
    except ImportError:
        pass
    sys.modules["pandas"] = types.SimpleNamespace(DataFrame=Frame)
    made = obs.frame(answer)
    agree("a frame", (made.columns, made.rows[:2]), (["bus", "island"], [("Alder", "Alder"), ("Birch", "Alder")]))
    agree("a frame of a part", obs.frame(answer, "critical").rows, [("Cedar line P",), ("Elm bus P",)])


def version():
    return re.search(r"^version: (.*)$", (HOME / "CITATION.cff").read_text(), re.M).group(1)


def try_pages():
    """The version stands once; where it is said again it is the same. The man page is what the pages say."""
    header = (HOME / "include/obs.h").read_text()
    found = re.search(r'OBS_VERSION "(.*)"', header).group(1), ".".join(re.findall(r"define OBS_VERSION_[A-Z]+ (\d+)", header))
    agree("the version of the header", found, (version(), version()))
    agree("the version of the package", re.search(r'VERSION = "(.*)"', (HOME / "python/obs/versions.py").read_text()).group(1), version())
    call(HOME / "tools/manual", "--check")


def try_prefix(work):
    """What is installed under a prefix."""
    prefix = work / "a prefix"
    call(HOME / "tools/install", prefix)
    for page in ("GUIDE.md", "FORMATS.md", "TOOLS.md"):
        agree(f"the installed {page}", (prefix / "share/doc/obs" / page).read_bytes(), (HOME / "docs" / page).read_bytes())
    agree("the commands", call(prefix / "bin/obs", "trial", "2", "1"), call(prefix / "bin/obs-large", "trial", "2", "1"))
    lacking = [it for it in ("pkg-config", os.environ.get("CC", "cc")) if not shutil.which(it)]
    if lacking:
        print(f"the examples by pkg-config are passed over: there is no {lacking[0]}")
    else:
        try_compiled(work, prefix)
    call(HOME / "tools/install", prefix)
    call(HOME / "tools/install", "--remove", prefix)
    if prefix.exists():
        raise Failed(f"of what was installed this is left: {paths(prefix)}")


def try_compiled(work, prefix):
    """The examples in C and C++, by what pkg-config says alone, with the shared and with the static library."""
    asked = {"PKG_CONFIG_PATH": f"{prefix}/lib/pkgconfig"}
    agree("obs.pc", call("pkg-config", "--modversion", "obs", **asked).strip(), version())
    flags = call("pkg-config", "--cflags", "--libs", "obs", **asked).strip().replace("\\ ", "\0").split()
    flags = [flag.replace("\0", " ") for flag in flags]
    compilers = [(os.environ.get("CC", "cc"), "c", "*.c"), (os.environ.get("CXX", "c++"), "cpp", "*.cpp")]
    count, into = 0, work / "built"
    into.mkdir()
    for compiler, folder, names in compilers:
        if not shutil.which(compiler):
            print(f"the examples in C++ by pkg-config are passed over: there is no {compiler}")
            continue
        for source in sorted((EXAMPLES / folder).glob(names)):
            call(compiler, "-O1", "-o", into / source.stem, source, *flags)
        for file in sorted((EXAMPLES / folder).glob("*.run")):
            try_example(file, f"{into}:{os.environ['PATH']}")
            count += 1
    print(count, "examples by the installed library, with what pkg-config says")


def main():
    if sys.argv[1:2] == ["inside"]:
        return try_inside(sys.argv[2])
    try_pages()
    for what, file in (("library", LIBRARY), ("program", LARGE)):
        if not file.exists():
            print(f"what is installed is passed over: there is no {what} {file} (tools/library install PREFIX builds all)")
            return None
    with tempfile.TemporaryDirectory() as work:
        try_prefix(Path(work))
        if subprocess.run([sys.executable, "-c", "import ensurepip, venv"], stderr=subprocess.DEVNULL).returncode:
            print("the wheel is passed over: there is no module ensurepip (apt install python3-venv)")
        else:
            try_wheel(Path(work))
    return None


if __name__ == "__main__":
    try:
        main()
    except Failed as why:
        print(why)
        sys.exit(1)
