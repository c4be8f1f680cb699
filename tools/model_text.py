"""The printed text of a small case, of a session and of a trial, by the lines of docs/FORMATS.md."""
import copy
import re

from model import Case, Network

# the commands whose answers have a summary, and what this says
SUMMED = ["report", "place", "outages", "pairs", "stations"]
SUMMARY = re.compile(rb"(obs: (no bus is|buses) [^\n]*\n)*")

ASKS = ["status", "tree", "bound", "islands", "critical", "report", "place", "cert"]

# what an edit sets: the table, the value, and the refusal where no row has the name
EDITS = {
    "open": ("switches", False, "5\tUnknownSwitch"),
    "close": ("switches", True, "5\tUnknownSwitch"),
    "trip": ("branches", False, "6\tUnknownBranch"),
    "restore": ("branches", True, "6\tUnknownBranch"),
    "lose": ("meters", False, "7\tUnknownMeter"),
    "regain": ("meters", True, "7\tUnknownMeter"),
}


def line(*words):
    return "\t".join(str(word) for word in words) + "\n"


class Text:
    """The blocks that are printed of a case. Its network answers what is determined: that of model.py, or one that goes another way."""

    def __init__(self, case, network_of=Network):
        self.case = case
        self.network = network_of(case)

    def bus(self, u):
        return self.case.nodes[self.network.names[u]][0]

    def item(self, m):
        meters = len(self.case.meters)
        return ("meter", self.case.meters[m][0]) if m < meters else ("candidate", self.case.candidates[m - meters][0])

    def pairs(self, pairs):
        word = lambda m, e: "angle" if self.case.is_angle(m) else self.case.branches[e][0]
        return "".join(line("pair", *self.item(m), word(m, e)) for m, e in pairs)

    def inside(self, items):
        return "".join(line("inside", *self.item(m)) for m in items)

    def topology(self):
        nodes = "".join(line("node", row[0], self.bus(u)) for row, u in zip(self.case.nodes, self.network.bus))
        return nodes + line("count", "buses", len(self.network.names)) + "end\n"

    def counts(self):
        n = self.network
        energised = sum(1 for c in n.component if c in n.energised)
        numbers = [len(n.names), energised, len(n.live_branches), len(n.meters), n.needed, n.rho(n.meters)]
        words = ["buses", "energised", "branches", "meters", "needed", "rank"]
        counts = "".join(line("count", word, number) for word, number in zip(words, numbers))
        return counts + line("verdict", "observable" if n.all_observable() else "short")

    def said(self, command):
        """What is said on standard error beside a whole answer."""
        n = self.network
        if command not in SUMMED:
            return ""
        energised = sum(1 for c in n.component if c in n.energised)
        at = [n.bus[self.case.meters[m][2]] for m in n.meters if self.case.meters[m][1] in ("injection", "zero")]
        crowded = sum(1 for u in set(at) if at.count(u) > 1)
        text = ""
        if energised == 0:
            text = "obs: no bus is energised, since no node is a source. So there is nothing to observe.\n"
        elif energised < len(n.names):
            text = f"obs: buses that are energised: {energised:,} of {len(n.names):,}. The others are left out.\n"
        if crowded:
            text += f"obs: buses at which more than one live injection or zero stands: {crowded:,}. An estimator has one equation at each.\n"
        return text

    def claims(self, trees=True, bounds=True):
        n, text = self.network, ""
        for c in n.energised:
            own = n.meters_of(c)
            if not n.is_observable(c):
                inside = [m for m in own if m not in n.critical(n.meters)]
                numbers = n.bound(inside, own)
                assert sum(numbers) == n.rho(own)
                text += line("bound", self.bus(c), *numbers) + self.inside(inside) if bounds else ""
            elif trees:
                text += line("tree", self.bus(c)) + self.pairs(p for p in n.first(n.meters) if n.component_of(p[0]) == c)
        return text

    def islands(self):
        n = self.network
        of = n.islands()
        return "".join(line("island", self.bus(of[u]), self.bus(u)) for u in range(len(of)) if n.component[u] in n.energised)

    def critical(self):
        return "".join(line("critical", self.case.meters[m][0]) for m in self.network.critical(self.network.meters))

    def place(self):
        n = self.network
        found = n.cheapest()
        if found is None:
            every = n.meters + n.candidates
            inside = [m for m in every if m not in n.critical(every)]
            return line("shortfall", *n.bound(inside, every)) + self.inside(inside)
        chosen, layers = found
        text = line("cost", sum(map(n.price, chosen))) + "".join(line("chosen", self.item(m)[1]) for m in chosen)
        text += self.pairs(n.first(n.meters + chosen))
        listed = []
        for start, end, inside, rank, outside in layers:
            assert set(listed) <= set(inside)
            text += line("layer", start, end, rank, outside) + self.inside(m for m in inside if m not in listed)
            listed = inside
        return text

    def ask(self, what):
        parts = {
            "status": self.counts,
            "tree": lambda: self.claims(bounds=False),
            "bound": lambda: self.claims(trees=False),
            "cert": self.claims,
            "islands": self.islands,
            "critical": self.critical,
            "report": lambda: self.counts() + self.claims() + self.islands() + self.critical(),
            "place": self.place,
        }
        return parts[what]() + "end\n"

    def status(self, what="report"):
        return 1 if (self.network.cheapest() is None if what == "place" else not self.network.all_observable()) else 0


def is_name(word):
    return 1 <= len(word) <= 64 and all(byte >= 0x20 and byte != 0x7F for byte in word)


def content_lines(content):
    lines = content.split(b"\n")
    if lines[-1] == b"":
        lines.pop()
    return [one[:-1] if one.endswith(b"\r") else one for one in lines]


def answer_line(case, offered, content, network_of):
    """The answer to a session line, which may change a flag of the case."""
    if len(content) > 256:
        return line("refused", 2, "LineTooLong")
    if content.decode("latin-1") in ASKS:
        what = content.decode()
        return line("refused", 8, "NoCandidates") if what == "place" and not offered else Text(case, network_of).ask(what)
    word, blank, name = content.partition(b" ")
    if word.decode("latin-1") not in EDITS:
        return line("refused", 1, "UnknownCommand")
    if not blank:
        return line("refused", 4, "WordMissing")
    if not is_name(name):
        return line("refused", 3, "BadName")
    table, value, refusal = EDITS[word.decode()]
    rows = [row for row in getattr(case, table) if row[0].encode("utf-8", "surrogateescape") == name]
    if not rows:
        return line("refused", refusal)
    rows[0][3] = value
    network = network_of(case)
    return line("ok", network.rho(network.meters), network.needed)


def session(case, offered, content, network_of=Network):
    case = copy.deepcopy(case)
    lines = [one for one in content_lines(content) if one and not one.startswith(b"#")]
    text = "".join(answer_line(case, offered, one, network_of) for one in lines)
    return text, Text(case, network_of).status()


def trial_case(size, seed):
    x, branches, meters = seed % 2**31, [], []
    nodes = [(f"n{i}", i == 0, False) for i in range(size * size)]
    for i in range(size * size):
        ends = ([i + 1] if i % size + 1 < size else []) + ([i + size] if i + size < size * size else [])
        branches += [[f"b{len(branches) + k}", i, end, True] for k, end in enumerate(ends)]
    for k, (_, start, end, _) in enumerate(branches):
        x = (x * 1103515245 + 12345) % 2**31
        kind, at = [("flow", k), ("injection", start), ("injection", end)][x // 65536 % 3]
        meters.append([f"m{k}", kind, at, True])
    return Case(nodes, [], branches, meters, [])


def trial(size, seed, searches=None, network_of=Network):
    """The text of a trial in which the edits took so many searches (or as few as they may), and whether they may."""
    text = Text(trial_case(size, seed), network_of)
    n = text.network
    dips, edits = len(n.critical(n.meters)), 2 * len(text.case.meters)
    searches = dips if searches is None else searches
    islands = len({island for u, island in enumerate(n.islands()) if n.component[u] in n.energised})
    numbers = line("islands", islands) + line("dips", dips) + line("edits", edits) + line("searches", searches)
    return line("trial", size, seed) + text.counts() + numbers + "end\n", text.status(), dips <= searches <= edits
