"""Definitions of specs/ as they are written: files of .antt, their imports and their declarations."""
import os
import re

TOKEN = re.compile(r'"(?:[^"\\]|\\.)*"|[(){};,@]|\.|«[^»]*»|[^\s(){}.;,@"«»]+')


class Token:
    """A word of a text, with its line, and whether it touches the word before it and the one behind it."""

    def __init__(self, text, line, touches_before, touches_behind):
        self.text = text
        self.line = line
        self.before = touches_before
        self.behind = touches_behind

    def __repr__(self):
        return self.text


def tokens_of(lines, first_line, comment="--"):
    """The words of some lines, without comments."""
    found = []
    for number, line in enumerate(lines, first_line):
        line = line.rstrip("\n")
        for match in TOKEN.finditer(line):
            text = match.group()
            if text.startswith(comment) and (match.start() == 0 or line[match.start() - 1].isspace()):
                break
            before = match.start() > 0 and not line[match.start() - 1].isspace()
            behind = match.end() < len(line) and not line[match.end()].isspace()
            found.append(Token(text, number, before, behind))
    return found


class Import:
    """One name that a file brings in: the module that it is of, its name there, and its name here."""

    def __init__(self, module, name, here, whole=False):
        self.module = module
        self.name = name
        self.here = here
        self.whole = whole


def imports_of(text):
    """The imports of one `use` line, with `use` and what stands before it taken off."""
    match = re.fullmatch(r"([\w.+]+?)\.\{(.*)\};?", text, re.S)
    if not match:
        path, _, alias = text.rstrip(";").partition(" as ")
        path = path.strip()
        return [Import(path, None, (alias or path.rsplit(".", 1)[-1]).strip(), True)]
    found = []
    for part in match.group(2).split(","):
        name, _, alias = part.strip().partition(" as ")
        if name:
            found.append(Import(match.group(1), name.strip(), (alias or name).strip()))
    return found


class Definition:
    """A definition: what it is called, where it stands, what is said of it, and its words by signature, fields and clauses."""

    def __init__(self, place, name, kind, first, doc, shares):
        self.place = place
        self.name = name
        self.kind = kind
        self.first = first
        self.last = first
        self.doc = doc
        self.shares = shares
        self.head = []
        self.clauses = []
        self.members = []

    def lines(self):
        return self.last - self.first + 1


def member_names(definition):
    """The fields of a record, or the constructors of data."""
    found = []
    for member in definition.members:
        for token in member:
            if token.text == ":":
                break
            if token.text != "pub":
                found.append(token.text)
    return found


class SpecFile:
    """A file of specs/: the module that it is, its imports, and its definitions in their order."""

    def __init__(self, crate, path, module):
        self.crate = crate
        self.path = path
        self.module = module
        self.imports = []
        self.definitions = {}
        with open(path, encoding="utf-8") as file:
            self.lines = file.read().split("\n")
        self.read(self.lines)

    def read(self, lines):
        doc, doc_above, last = [], None, None
        for first, end in blocks(lines):
            line = lines[first]
            if line.startswith("--"):
                doc = [l[2:].strip() for l in lines[first:end]]
                doc_above = None
                continue
            text = "\n".join(lines[first:end])
            if re.match(r"(pub )?mod ", line):
                continue
            if line.startswith("use "):
                self.imports += imports_of(" ".join(text[4:].split()))
                doc = []
                continue
            match = re.match(r"(?:(abbrev|unfoldable) )?(?:pub )?(?:(record|data) )?([^\s(){}.;,@:]+)", text)
            name = match.group(3)
            if last and name == last.name and not match.group(1) and not match.group(2):
                last.clauses.append(tokens_of(lines[first:end], first + 1))
                last.last = trimmed(lines, first, end)
                continue
            last = Definition(self, name, match.group(2) or match.group(1) or "definition", first + 1, " ".join(doc), doc_above)
            last.last = trimmed(lines, first, end)
            doc_above = last if doc else doc_above
            doc = []
            self.definitions[name] = last
            self.part(last, lines, first, end)

    def data_of(self, name):
        """The data of which a name is a constructor."""
        return next((item for item in self.definitions.values() if item.kind == "data" and name in member_names(item)), None)

    def part(self, definition, lines, first, end):
        """Parts a record or data into its head and its members; of another definition the block is its signature."""
        cut = end
        if definition.kind in ("record", "data"):
            cut = next(k for k in range(first, end) if re.search(r"\bwhere$", lines[k].rstrip())) + 1
            starts = [k for k in range(cut, end) if re.match(r"  [^\s-]", lines[k])]
            for start, behind in zip(starts, starts[1:] + [end]):
                definition.members.append(tokens_of(lines[start:behind], start + 1))
        definition.head = tokens_of(lines[first:cut], first + 1)


def trimmed(lines, first, end):
    """The number of the last line of a block that isn't blank and no comment."""
    while end > first and (not lines[end - 1].strip() or lines[end - 1].startswith("--")):
        end -= 1
    return end


def blocks(lines):
    """The blocks of a file: each begins in the first column; lines of a comment are one, and a closing bracket begins none."""
    starts = []
    for k, line in enumerate(lines):
        if not line or line[0].isspace() or line[0] in ")}]":
            continue
        if line.startswith("--") and starts and starts[-1] + 1 <= k and all(l.startswith("--") for l in lines[starts[-1]:k]):
            continue
        starts.append(k)
    return [(start, behind) for start, behind in zip(starts, starts[1:] + [len(lines)])]


def spec_files(top, crate):
    """The files of a crate's specs/ in the order in which specs/Lib.antt names them, and files that name others."""
    folder = os.path.join(top, "crates", crate, "specs")
    root = os.path.join(folder, "Lib.antt")
    return files_named(crate, root, folder, f"Rattle.{crate}.specs") if os.path.exists(root) else []


def files_named(crate, root, folder, module):
    """The files that the `mod` lines of one file name, each before those that it names itself."""
    found = []
    with open(root, encoding="utf-8") as file:
        names = re.findall(r"^(?:pub )?mod (\w+)", file.read(), re.M)
    for name in names:
        path = os.path.join(folder, name + ".antt")
        found.append(SpecFile(crate, path, f"{module}.{name}"))
        found += files_named(crate, path, os.path.join(folder, name), f"{module}.{name}")
    return found
