"""docs/STATEMENT.md: what the claims of README rest on, as a page."""
import os
import re

from closure import Sources, closure_of, rests_on
from definitions import Definition

# The chapters in reading order, each with its crates; a crate behind a slash stands for one file of its specs/.
CHAPTERS = [
    ("Bytes and names", ["obs_text"]),
    ("Tables", ["obs_case", "obs_case_csv", "obs_bus_branch", "obs_ieee_cdf", "obs_matpower", "obs_trial"]),
    ("The network", ["obs_switch", "obs_graph", "obs_meter/Touches", "obs_network"]),
    ("Assignments", ["obs_matroid", "obs_meter", "obs_forest", "obs_assign", "obs_exchange", "obs_rankcut", "obs_kept"]),
    ("Answers", ["obs_first", "obs_critical", "obs_islands", "obs_placement", "obs_pairs", "obs_outage", "obs_station", "obs_repair", "obs_edit"]),
    ("Texts", ["obs_report", "obs_script", "obs_engine"]),
    ("Certificates", ["obs_cert", "obs_claimed"]),
    ("The outside", ["obs_io", "obs_files", "obs_notice", "obs", "obs_c"]),
]

HEAD = """# The statement

What [README](../README.md#what-is-proved) claims rests on the definitions below, and on nothing else of the repository: {count} definitions in {lines}
lines of `specs/`, {types} types and traits of `src/` in {type_lines} lines, and the clauses of {calls} calls and laws, which are {clause_lines} lines
in all. Of the other {others} definitions, which are the {other_lines} lines of each `specs/inner`, and of the proofs nothing has to be believed: the
check reads them. A word of the kit's library is the kit's ([what is trusted](../README.md#what-isnt)).

This page is written by `tools/statement` from the sources, by their names and imports; [statement.txt](../tools/statement.txt) lists the claims.
`tools/statement --check` says where it differs from them. A sentence here is the first one of the comment above the definition, which the link
opens. Where a definition has no comment of its own, its clause stands here, or *as above* where it shares the comment of the one above it.

That they mean what their sentences say is seen on small cases: [obs_worked](../crates/obs_worked/README.md) has the prover evaluate them, with values
that were worked out by hand, and `tools/slips.py` shows that slips in definitions are refused there.
"""


def claims_of(path):
    """The claims of the list, each with its calls by crate, module and name."""
    found = []
    with open(path, encoding="utf-8") as file:
        for line in file:
            line = line.rstrip("\n")
            if line.startswith("  "):
                found[-1][1].append(tuple(line.split()))
            elif line and not line.startswith("#"):
                found.append((line, []))
    return found


def call_of(sources, crate, module, name):
    file = sources.rust.get((crate, module if module not in ("lib", "main") else ""))
    if file is None or name not in file.calls:
        raise LookupError(f"tools/statement.txt: {crate} {module} {name} is no call or law")
    return file.calls[name]


def link(top, item, words=None):
    path = os.path.relpath(item.place.path, os.path.join(top, "docs"))
    return f"[{words or item.name}]({path}#L{item.first})"


def sentence(item):
    """The first sentence of what is said of a definition, as text of a table; else its only clause, where that is short."""
    header = item.place.lines[0][2:].strip() if item.place.lines[0].startswith("--") and not item.shares else ""
    if item.doc or header and len(item.clauses) > 1:
        words = re.split(r"(?<=\.)\s+(?=[A-Z`])", item.doc or header)[0].rstrip(".")
        words = re.sub(r"([|*])", r"\\\1", words).replace("<", "&lt;")
        return words[0].upper() + words[1:]
    clause = " ".join(" ".join(item.place.lines[item.first:item.last]).split()).replace("|", "\\|")
    if isinstance(item, Definition) and len(item.clauses) == 1 and len(clause) <= 170:
        return f"`{clause}`"
    return "*As above.*" if item.shares else "-"


def counts(items):
    return len(items), sum(item.lines() for item in items)


def table(heads, rows):
    yield "| " + " | ".join(heads) + " |"
    yield "|" + "---|" * len(heads)
    for row in rows:
        yield "| " + " | ".join(str(cell) for cell in row) + " |"


class Page:
    """The page over the sources of a folder."""

    def __init__(self, top):
        self.top = top
        self.sources = Sources(top)
        self.known = {}
        self.claims = [(words, [call_of(self.sources, *call) for call in calls])
                       for words, calls in claims_of(os.path.join(top, "tools", "statement.txt"))]
        self.calls = list(dict.fromkeys(call for _, calls in self.claims for call in calls))
        self.found = self.closure(self.calls)
        self.specs = [item for item in self.found if isinstance(item, Definition)]
        self.types = [item for item in self.found if not isinstance(item, Definition) and item.kind != "call"]

    def closure(self, roots):
        return closure_of(self.sources, roots, self.known)

    def unsaid(self):
        """The definitions without a sentence of their own."""
        return [item for item in self.found if not item.doc]

    def lines(self):
        yield from self.head()
        for title, crates in CHAPTERS:
            yield from self.chapter(title, crates)

    def head(self):
        count, lines = counts(self.specs)
        every = [item for file in self.sources.specs.values() for item in file.definitions.values()]
        all_count, all_lines = counts(every)
        types, type_lines = counts(self.types)
        clause_lines = sum(clause_count(call) for call in self.calls)
        yield from HEAD.format(count=count, lines=lines, types=types, type_lines=type_lines, calls=len(self.calls), clause_lines=clause_lines,
                               others=all_count - count, other_lines=all_lines - lines).split("\n")
        yield "## What is claimed"
        yield ""
        yield "The last two columns count the definitions of `specs/` that each claim rests on, and their lines."
        yield ""
        rows = []
        for words, calls in self.claims:
            own = [item for item in self.closure(calls) if isinstance(item, Definition)]
            said = ", ".join(f"`{call.place.crate}`: " * (k == 0 or calls[k - 1].place.crate != call.place.crate) + link(self.top, call)
                             for k, call in enumerate(calls))
            rows.append((words, said, *counts(own)))
        yield from table(("Claim", "Said by the clauses of", "Definitions", "Lines"), rows)
        yield ""
        yield from self.by_crate()

    def by_crate(self):
        yield "## By crate"
        yield ""
        rows = []
        for crate in self.sources.order:
            own = [item for item in self.specs if item.place.crate == crate]
            every = [item for file in self.sources.specs.values() if file.crate == crate for item in file.definitions.values()]
            if own:
                rows.append((f"[{crate}](../crates/{crate}/README.md)", *counts(own), *counts(every)))
        yield from table(("Crate", "Definitions", "Lines", "Of definitions in its `specs/`", "Of lines"), rows)
        yield ""

    def chapter(self, title, crates):
        files = []
        for crate in crates:
            files += [place for place in self.files(crate) if place not in files and self.is_chapter(place, crates, crate)]
        items = [item for place in files for item in self.found if item.place is place]
        count, lines = counts([item for item in items if isinstance(item, Definition)])
        yield f"## {title}"
        yield ""
        yield f"{count} definitions, {lines} lines."
        yield ""
        rows = []
        for place in files:
            name = os.path.relpath(place.path, os.path.join(self.top, "crates"))
            rows.append((f"**{name}**", ""))
            rows += [(link(self.top, item), sentence(item)) for item in sorted(self.found, key=lambda item: item.first) if item.place is place]
        yield from table(("Definition", "What it says"), rows)
        yield ""

    def files(self, crate):
        """The files of a crate that have something of the closure: its types first, and then its specs/ in their order."""
        name, _, only = crate.partition("/")
        places = {item.place for item in self.found if item.place.crate == name}
        source = [file for (own, _), file in self.sources.rust.items() if own == name and file in places]
        specs = [file for file in self.sources.specs.values() if file.crate == name and file in places]
        if only:
            return [file for file in specs if os.path.basename(file.path) == only + ".antt"]
        return source + specs

    def is_chapter(self, place, crates, crate):
        """Whether a file isn't told to stand in another chapter by its own name."""
        own = f"{place.crate}/{os.path.basename(place.path).removesuffix('.antt')}"
        return own == crate or not any(own in others for _, others in CHAPTERS)


def clause_count(call):
    """The lines of a call's clauses."""
    lines = set()
    for _, _, tokens in call.clauses():
        lines.update(token.line for token in tokens)
    return len(lines)
