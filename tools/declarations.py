"""What the Rattle sources declare that definitions and clauses speak of: types, traits, and calls with their clauses."""
import os
import re

from definitions import imports_of, tokens_of

HEAD = re.compile(r"(?:pub(?:\([^)]*\))? )?(struct|enum|trait) (\w+)")
CALL = re.compile(r'(?:pub(?:\([^)]*\))? )?(?:extern "C" )?fn (\w+)')
CLAUSE = re.compile(r"(requires|ensures)\*?(?: (\w+))? \{")


class Declared:
    """A type, a trait or a call of a source file: its name, its kind, its place, what is said of it, and its text."""

    def __init__(self, place, kind, name, first, last, doc):
        self.place = place
        self.kind = kind
        self.name = name
        self.first = first
        self.last = last
        self.doc = doc
        self.shares = None

    def lines(self):
        return self.last - self.first + 1

    def text(self):
        return self.place.lines[self.first - 1:self.last]

    def members(self):
        """The fields of a struct, the variants of an enum, or the ghost members of a trait."""
        if self.kind == "trait":
            return [m.group(1) for line in self.text() if (m := re.match(r"\s+ghost (\w+):", line))]
        pattern = r"    (?:pub(?:\([^)]*\))? )?(?:ghost )?(\w+):" if self.kind == "struct" else r"    ([A-Z]\w*)"
        return [m.group(1) for line in self.text()[1:] if (m := re.match(pattern, line))]

    def field_types(self, of=None):
        """The type names in the fields of a struct or the variants of an enum; `of` says which fields are asked for."""
        found = []
        for line in self.text()[1:] or self.text():
            line = re.sub(r"^    [A-Z]\w*", "", line) if self.kind == "enum" else line
            field = re.match(r"    (?:pub(?:\([^)]*\))? )?(\w+):", line)
            if "ghost" in line or line.lstrip().startswith(("//", "#")):
                continue
            if of is None or field and field.group(1) in of:
                found += re.findall(r"\b[A-Z]\w*", line)
        return found

    def clauses(self):
        """The clauses of a call or of a trait's calls, each with its kind, its name and its words."""
        text = "\n".join(without_comments(self.text()))
        found = []
        for match in CLAUSE.finditer(text):
            end = closing(text, match.end() - 1)
            first = self.first + text.count("\n", 0, match.end())
            found.append((match.group(1), match.group(2), tokens_of(text[match.end():end].split("\n"), first)))
        return found

    def parameters(self):
        """The type parameters of a call, each with its trait."""
        head = re.search(r"fn \w+<([^(]*)>\(", " ".join(self.text()))
        return dict(re.findall(r"(\w+): (\w+)", head.group(1))) if head else {}


def without_comments(lines):
    return [re.sub(r"(^|\s)//.*", "", line) for line in lines]


def closing(text, at):
    """Where the bracket that opens at a place closes."""
    depth = 0
    for k in range(at, len(text)):
        depth += (text[k] == "{") - (text[k] == "}")
        if depth == 0:
            return k
    raise ValueError("a bracket that isn't closed: " + text[at:at + 60])


class RustFile:
    """A source file: its imports, the types and traits that it declares, its calls, and the models that it gives types."""

    def __init__(self, crate, path, module):
        self.crate = crate
        self.path = path
        self.module = module
        with open(path, encoding="utf-8") as file:
            self.lines = file.read().split("\n")
        plain = without_comments(self.lines)
        text = "\n".join(plain)
        self.imports = []
        for match in re.finditer(r"^ *ghost use ([^;]*);", text, re.M):
            self.imports += imports_of(" ".join(match.group(1).split()))
        self.uses = re.findall(r"^(?:pub )?use (\w+)((?:::\w+)*)(?:::\{([^}]*)\})?", text, re.M)
        self.declared = {}
        self.calls = {}
        self.models = {}
        for k, line in enumerate(plain):
            self.take(plain, k, line)

    def take(self, plain, k, line):
        if match := HEAD.match(line):
            self.declared[match.group(2)] = self.declaration(match.group(1), match.group(2), k, plain)
        elif match := CALL.match(line.strip()):
            self.calls[match.group(1)] = self.declaration("call", match.group(1), k, plain)
        elif match := re.match(r"impl(?:<([^>]*)>)? (?:Model|Files|Source|Sink) for (\w+)", line):
            words, parameters = self.models.setdefault(match.group(2), ([], {}))
            words += self.model(plain, k)
            parameters.update(re.findall(r"(\w+): (\w+)", match.group(1) or ""))

    def declaration(self, kind, name, k, plain):
        doc, above = [], k - 1
        while above >= 0 and re.match(r"\s*(//|#\[)", self.lines[above]):
            if match := re.match(r"\s*///? ?(.*)", self.lines[above]):
                doc.insert(0, match.group(1).strip())
            above -= 1
        return Declared(self, kind, name, k + 1, self.end(kind, k, plain), " ".join(doc))

    def end(self, kind, k, plain):
        """The number of the last line: of a call that of its last clause, of others that of the closing bracket."""
        margin = len(plain[k]) - len(plain[k].lstrip())
        if kind != "call" and re.search(r"[;}]$", plain[k]):
            return k + 1
        for last in range(k + 1, len(plain)):
            line = plain[last]
            if len(line) - len(line.lstrip()) == margin and line.strip() in ("{", "{}", "}"):
                return last if line.strip() == "{" else last + 1
        return k + 1

    def model(self, plain, k):
        """The words of a model's value and view, or of the members of the outside."""
        end = next(n for n in range(k + 1, len(plain)) if plain[n].startswith("}"))
        text = "\n".join(plain[k:end])
        words = []
        for match in re.finditer(r"ghost (?:Value|view|content|left|written|faults|steady|has_room) = \{", text):
            to = closing(text, match.end() - 1)
            words.append(tokens_of(text[match.end():to].split("\n"), k + 1))
        return words


def rust_files(top, crate):
    """The source files of a crate by their modules."""
    folder = os.path.join(top, "crates", crate, "src")
    found = []
    for place, folders, names in os.walk(folder):
        folders.sort()
        for name in sorted(names):
            if name.endswith(".rt"):
                path = os.path.join(place, name)
                module = os.path.relpath(path, folder)[:-3].replace(os.sep, ".")
                found.append(RustFile(crate, path, "" if module in ("lib", "main") else module))
    return found
