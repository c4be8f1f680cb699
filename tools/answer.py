"""A case, and what obs printed of it. What tools/explain, tools/draw and tools/tables have in common.

The files are copied first, and both obs and the reader of this module read the copies. The answers are those that obs printed; which
rows are live is told from the tables by the rules of docs/GLOSSARY.md, and compared with the numbers that obs printed.
"""
import collections
import csv
import io
import os
import subprocess
import sys
import tempfile

import model_reads

HOME = os.path.dirname(os.path.dirname(os.path.abspath(__file__)))
FORMS = {"tables": ["nodes", "switches", "branches", "meters"], "cdf": ["case", "meters"], "matpower": ["case", "meters"]}
OWN_FAILURE = 70

Bound = collections.namedtuple("Bound", "rank outside inside")
Plan = collections.namedtuple("Plan", "cost chosen")
Shortfall = collections.namedtuple("Shortfall", "rank outside")


class Failure(Exception):
    """There is no answer to go by. The status is that of obs, and the text what it printed."""

    def __init__(self, status, printed=""):
        super().__init__(printed)
        self.status = status
        self.printed = printed
        self.form = None
        self.contents = {}


class Form:
    """The form of a case and its files, by the words behind an option or a command."""

    def __init__(self, words):
        self.kind = words[0] if words else ""
        parts = FORMS.get(self.kind)
        rest = words[1:]
        if parts is None or len(rest) < len(parts):
            raise ValueError
        self.files = dict(zip(parts, rest))
        behind = rest[len(parts):]
        if behind and (len(behind) != 2 or behind[0] != "with"):
            raise ValueError
        if behind:
            self.files["candidates"] = behind[1]

    def read(self):
        found = {}
        for part, path in self.files.items():
            with open(path, "rb") as file:
                found[part] = file.read()
        return found

    def words(self, files):
        """The words of a report on these files, and what stands behind `place`."""
        case = [self.kind, *(files[part] for part in FORMS[self.kind])]
        return case, case + [files[part] for part in files if part == "candidates"]


def records_of(content):
    """The records of a table, by the rules of CSV. Each byte is taken for itself."""
    csv.field_size_limit(1 << 30)
    text = content.removeprefix(b"\xef\xbb\xbf").decode("latin-1")
    return [[field.encode("latin-1") for field in record] for record in csv.reader(io.StringIO(text, newline="")) if record]


def table_of(part, rows):
    """The bytes of a table with these rows of text."""
    quoted = lambda field: '"' + field.replace('"', '""') + '"' if any(mark in field for mark in ',"\r\n') else field
    columns = model_reads.COLUMNS[part] + model_reads.FURTHER.get(part, [])
    lines = [",".join(map(quoted, fields)) + "\n" for fields in [columns[: len(rows[0])] if rows else model_reads.COLUMNS[part], *rows]]
    return "".join(lines).encode("utf-8", "surrogateescape")


def case_of(kind, contents):
    """The case that the files are. obs has read them before, so they have no fault."""
    tables = {part: records_of(contents[part]) for part in contents if part != "case"}
    offered = tables.get("candidates", [[b"candidate", b"kind", b"at", b"price"]])
    if kind == "tables":
        return model_reads.read_tables([tables[part] for part in FORMS["tables"]] + [offered])
    read = model_reads.read_cdf if kind == "cdf" else model_reads.read_matpower
    return model_reads.with_items(*read(contents["case"]), tables["meters"], offered)


def run(program, words, folder, is_quiet=False):
    """What obs prints. Where it has no answer its lines on standard error stand already. What it says beside an answer stands too, unless
    this is to be quiet: of one case it is enough to hear it beside the report.
    """
    try:
        done = subprocess.run(
            [program, *words], cwd=folder, stdin=subprocess.DEVNULL, stdout=subprocess.PIPE, stderr=subprocess.PIPE if is_quiet else None
        )
    except OSError as error:
        raise Failure(OWN_FAILURE, f"the program can't be run: {error}\n") from error
    if is_quiet and done.returncode not in (0, 1):
        sys.stderr.write(done.stderr.decode("utf-8", "backslashreplace"))
    text = done.stdout.decode("utf-8", "surrogateescape")
    if done.returncode not in (0, 1):
        raise Failure(done.returncode if done.returncode > 0 else 128 - done.returncode, text)
    lines = [line.split("\t") for line in text.split("\n")[:-1]]
    if lines[-1:] != [["end"]]:
        raise Failure(OWN_FAILURE, f"{program} didn't answer as obs does\n")
    return lines, done.returncode


def fault_text(text):
    """The line of a fault in a sentence."""
    word, part, place, _, name = text.rstrip("\n").split("\t")
    is_table = part in model_reads.COLUMNS
    whole = f"the table of {part}" if is_table else {"cdf": "the CDF file", "matpower": "the MATPOWER file"}.get(part, f"the {part}")
    row = f"row {place} (the header is row 0)" if is_table else f"line {place}"
    where = f"in {row} of {whole}" if is_table or place != "0" else f"in {whole}"
    return f"obs read no case: {name} {where}. docs/GUIDE.md says what likely causes this {word}."


def end(tool, page, parse, work):
    """Does the work of a tool for its words, and ends with a status. What fails in the tool itself has no status of obs."""
    if sys.argv[1:] == ["--help"]:
        print(page, end="")
        sys.exit(0)
    try:
        parsed = parse(sys.argv[1:])
    except ValueError:
        usage = "\n".join(line for line in page.split("\n") if "[with CAND]" in line)
        form = "FORM is: tables N S B M, or cdf C M, or matpower C M. " if "FORM" in usage else ""
        print(f"{usage}\n{form}{tool} --help says more.", file=sys.stderr)
        sys.exit(2)
    try:
        status = work(*parsed)
    except Failure as failure:
        status = failure.status
        if status == 3:
            write(sys.stdout.buffer, fault_text(failure.printed) + "\n")
        elif failure.printed:
            print(f"{tool}: {failure.printed}", end="", file=sys.stderr)
    except Exception as error:
        print(f"{tool}: {error if isinstance(error, OSError) else repr(error)}", file=sys.stderr)
        status = OWN_FAILURE
    sys.exit(status)


def write(out, text):
    """Writes text as UTF-8, whatever the language of the machine is."""
    out.write(text.encode("utf-8", "backslashreplace"))
    out.flush()


def program_of(option):
    """The program: that of the option, or of the variable OBS, or ./obs beside the tools."""
    program = option or os.environ.get("OBS") or os.path.join(HOME, "obs")
    return os.path.abspath(program) if "/" in program else program


def ask(program, form, asks_losses=None):
    """The answer to the case of a form. A file that can't be read here is left to obs, which says why. `asks_losses` asks for more,
    beside what `report` prints.
    """
    try:
        contents = form.read()
    except OSError as error:
        run(program, ["report", *form.words(form.files)[0]], None)
        raise Failure(OWN_FAILURE, f"{error}\n") from error
    try:
        return Answer(program, form, contents, asks_losses)
    except Failure as failure:
        failure.form, failure.contents = form, contents
        raise


class Answer:
    """The case of a form whose files have these contents, and what obs answered. Of one that isn't the caller's own it is to be quiet."""

    def __init__(self, program, form, contents, asks_losses=None, is_quiet=False):
        self.form = form
        self.contents = contents
        self.is_quiet = is_quiet
        with tempfile.TemporaryDirectory() as folder:
            words = self.ask(program, folder)
            self.losses = asks_losses(program, folder, words) if asks_losses else None
        self.case = case_of(form.kind, contents)
        self.find_network()
        self.find_items()
        self.remaining = self.with_all_bought(program) if self.shortfall else None

    def ask(self, program, folder):
        names = {part: f"{part}.csv" if part in model_reads.COLUMNS else part for part in self.contents}
        for part, content in self.contents.items():
            with open(os.path.join(folder, names[part]), "wb") as file:
                file.write(content)
        words, with_candidates = self.form.words(names)
        self.topology = run(program, ["topology", *words[1:3]], folder)[0] if self.form.kind == "tables" else None
        lines, self.status = run(program, ["report", *words], folder, self.is_quiet)
        self.take_report(lines)
        self.plan = self.shortfall = None
        if "candidates" in self.contents:
            lines, self.status = run(program, ["place", *with_candidates], folder, True)
            self.take_placement(lines)
        return words

    def with_all_bought(self, program):
        """The answer where all live candidates are meters, or None where no table takes as many."""
        rows = [(f"m{m}", *self.case.meters[m][1:3]) for m in self.live_meters]
        rows += [(f"c{c}", *self.case.candidates[c][1:3]) for c in self.live_candidates]
        if len(rows) > model_reads.MOST_ROWS:
            return None
        place = lambda kind, at: (self.case.branches if kind == "flow" else self.case.nodes)[at][0]
        records = [[name, kind, place(kind, at), "1"] for name, kind, at in rows]
        contents = {part: content for part, content in self.contents.items() if part != "candidates"}
        return Answer(program, self.form, contents | {"meters": table_of("meters", records)}, is_quiet=True)

    def take_report(self, lines):
        self.counts = {line[1]: int(line[2]) for line in lines if line[0] == "count"}
        self.verdict = next(line[1] for line in lines if line[0] == "verdict")
        self.island_lines = [(line[1], line[2]) for line in lines if line[0] == "island"]
        self.critical = [line[1] for line in lines if line[0] == "critical"]
        self.trees = [line[1] for line in lines if line[0] == "tree"]
        self.bounds = {}
        for word, *rest in lines:
            if word == "bound":
                listed = []
                self.bounds[rest[0]] = Bound(int(rest[1]), int(rest[2]), listed)
            elif word == "inside":
                listed.append(rest[1])

    def take_placement(self, lines):
        if lines[0][0] == "cost":
            self.plan = Plan(int(lines[0][1]), [line[1] for line in lines if line[0] == "chosen"])
        else:
            self.shortfall = Shortfall(int(lines[0][1]), int(lines[0][2]))

    def find_network(self):
        """Buses by their first nodes, live branches, components, and the islands that were printed."""
        at = {row[0]: k for k, row in enumerate(self.case.nodes)}
        first = [at[line[2]] for line in self.topology if line[0] == "node"] if self.topology else list(range(len(at)))
        self.firsts = sorted(set(first))
        number = {node: u for u, node in enumerate(self.firsts)}
        self.bus = [number[node] for node in first]
        self.names = [self.case.nodes[node][0] for node in self.firsts]
        named = {name: u for u, name in enumerate(self.names)}
        self.nodes = [[] for _ in self.names]
        for node, u in enumerate(self.bus):
            self.nodes[u].append(node)
        rows = [(e, self.bus[row[1]], self.bus[row[2]]) for e, row in enumerate(self.case.branches) if row[3]]
        self.ends = {e: (u, v) for e, u, v in rows if u != v}
        self.part = joined(len(self.names), self.ends.values())
        self.island = [None] * len(self.names)
        for island, name in self.island_lines:
            self.island[named[name]] = named[island]
        self.islands = members(self.island)
        self.islands_of = members([self.part[u] if self.island[u] == u else None for u in range(len(self.names))])
        self.parts = members([part if self.island[u] is not None else None for u, part in enumerate(self.part)])
        marked = {self.part[self.bus[node]] for node, row in enumerate(self.case.nodes) if row[2]}
        self.absolute = {part for part in self.parts if part in marked}
        self.dead_parts = members([part if self.island[u] is None else None for u, part in enumerate(self.part)])

    def find_items(self):
        """Which items are live, the branches between islands, and of each absolute part the island that angle meters tie to the reference.

        An angle meter and its bus alone tie that bus to it, so all buses with one lie in that island. The counts are to be those that
        obs printed.
        """
        self.live_branches = [e for e, (u, _) in self.ends.items() if self.island[u] is not None]
        self.at_bus = [[] for _ in self.names]
        for e in self.live_branches:
            for u in self.ends[e]:
                self.at_bus[u].append(e)
        self.live_meters = [m for m, row in enumerate(self.case.meters) if row[3] and self.is_touching(row)]
        self.live_candidates = [c for c, row in enumerate(self.case.candidates) if self.is_touching(row)]
        self.ties = [e for e in self.live_branches if self.island[self.ends[e][0]] != self.island[self.ends[e][1]]]
        self.ties_of = {}
        for e in self.ties:
            self.ties_of.setdefault(self.part[self.ends[e][0]], []).append(e)
        self.injected = {self.place(self.case.meters[m]) for m in self.live_meters if self.case.meters[m][1] in ("injection", "zero")}
        self.angle_meters = {}
        for m in self.live_meters:
            if self.case.meters[m][1] == "angle":
                self.angle_meters.setdefault(self.part[self.place(self.case.meters[m])], []).append(m)
        self.with_reference = {part: self.island[self.place(self.case.meters[some[0]])] for part, some in self.angle_meters.items()}
        self.short_parts = [part for part in self.parts if self.names[part] in self.bounds]
        self.meter_at = {row[0]: m for m, row in enumerate(self.case.meters)}
        self.candidate_at = {row[0]: c for c, row in enumerate(self.case.candidates)}
        found = [len(self.names), len(self.island_lines), len(self.live_branches), len(self.live_meters)]
        needed = sum(map(self.need, self.parts))
        if [self.counts[word] for word in ("buses", "energised", "branches", "meters", "needed")] != [*found, needed]:
            raise Failure(OWN_FAILURE, "the files were read otherwise than obs read them\n")

    def is_touching(self, row):
        if row[1] == "angle":
            return self.part[self.place(row)] in self.absolute
        return self.place(row) in self.ends and self.is_live(row[2]) if row[1] == "flow" else bool(self.at_bus[self.place(row)])

    def is_live(self, e):
        return self.island[self.ends[e][0]] is not None

    def place(self, row):
        """The branch or the bus of a meter or a candidate."""
        return row[2] if row[1] == "flow" else self.bus[row[2]]

    def need(self, part):
        return len(self.parts[part]) - (part not in self.absolute)

    def untied(self, part):
        """The buses of an absolute part that no angle meter ties to its time reference, with what they are measured against each other."""
        return [u for u in self.parts[part] if self.island[u] != self.with_reference.get(part)]

    def missing(self, part):
        """How many pairs a short component lacks: its bound is what it can have."""
        bound = self.bounds[self.names[part]]
        return self.need(part) - bound.rank - bound.outside


def joined(count, links):
    """For each of so many things the first that it is joined with."""
    parent = list(range(count))

    def root(i):
        while parent[i] != i:
            parent[i] = parent[parent[i]]
            i = parent[i]
        return i

    for a, b in links:
        a, b = root(a), root(b)
        parent[max(a, b)] = min(a, b)
    return [root(i) for i in range(count)]


def members(of):
    """For each of the values the positions that have it, in their order. None is no value."""
    found = {}
    for i, value in enumerate(of):
        if value is not None:
            found.setdefault(value, []).append(i)
    return found
