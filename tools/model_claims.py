"""What is to be said of a certificate, by the tables of docs/FORMATS.md."""
from model import Network
from model_reads import whole
from model_text import content_lines, is_name, line

FLAWS = """UnknownName NotComponent NotInside NotTouched Twice Cycle WrongLength WrongRank WrongOutside NotBelow WrongLayers
WrongCost""".split()
FAULTS = ["BadLine", "OutOfPlace", "NoEnd", "AfterEnd"]

# the words of a line behind its kind: an item's word, a name, a number
FORMS = {
    b"tree": "n",
    b"pair": "inn",
    b"bound": "n##",
    b"inside": "in",
    b"cost": "#",
    b"chosen": "n",
    b"layer": "####",
    b"shortfall": "##",
    b"end": "",
}
STARTS = (b"tree", b"bound", b"cost", b"shortfall")
BEHIND = {
    b"pair": (b"tree", b"pair", b"cost", b"chosen"),
    b"chosen": (b"cost", b"chosen"),
    b"inside": (b"bound", b"shortfall", b"layer", b"inside"),
}


def fits(form, word):
    if form == "i":
        return word in (b"meter", b"candidate")
    return is_name(word) if form == "n" else whole(word) is not None


def has_form(words):
    form = FORMS.get(words[0])
    return form is not None and len(words) == len(form) + 1 and all(map(fits, form, words[1:]))


def may_stand(kind, before, start):
    if kind in STARTS or kind == b"end":
        return True
    if kind == b"layer":
        return before in (b"cost", b"chosen", b"layer") or (before in (b"pair", b"inside") and start == b"cost")
    return before in BEHIND[kind]


def read_claims(content):
    """The claims, each a list of lines of words, or the line of the first fault."""
    claims, before, start, is_ended = [], None, None, False
    for number, text in enumerate(content_lines(content), 1):
        words = text.split(b"\t")
        fault = "AfterEnd" if is_ended else None if has_form(words) else "BadLine"
        if not fault and not may_stand(words[0], before, start):
            fault = "OutOfPlace"
        if fault:
            return None, line("fault", "certificate", number, FAULTS.index(fault) + 1, fault)
        before, is_ended = words[0], words[0] == b"end"
        if before in STARTS:
            start = before
            claims.append([])
        if not is_ended:
            claims[-1].append(words)
    if not is_ended:
        return None, line("fault", "certificate", 0, 3, "NoEnd")
    return claims, None


class Claim:
    """A claim over a network: the items, branches and numbers that it names."""

    def __init__(self, network, lines):
        self.network = n = network
        case = n.case
        place = lambda rows, name: next((i for i, row in enumerate(rows) if row[0].encode("utf-8", "surrogateescape") == name), None)

        def item(word, name):
            if word == b"meter":
                return place(case.meters, name)
            at = place(case.candidates, name)
            return None if at is None else at + len(case.meters)

        def branch(m, word):
            if m is None or not case.is_angle(m):
                return place(case.branches, word)
            return len(case.branches) + m if word == b"angle" else None

        def pair(word, name, at):
            m = item(word, name)
            return m, branch(m, at)

        self.kind = lines[0][0]
        self.numbers = [whole(word) for word in lines[0][1:] if self.kind in (b"cost", b"shortfall")]
        self.named = self.kind in (b"tree", b"bound")
        self.node = place(case.nodes, lines[0][1]) if self.named else None
        if self.kind == b"bound":
            self.numbers = [whole(word) for word in lines[0][2:]]
        self.pairs = [pair(*words[1:]) for words in lines if words[0] == b"pair"]
        self.inside = [item(*words[1:]) for words in lines if words[0] == b"inside"]
        self.chosen = [item(b"candidate", words[1]) for words in lines if words[0] == b"chosen"]
        self.layers, listed = [], []
        for words in lines:
            if words[0] == b"layer":
                self.layers.append(([whole(word) for word in words[1:]], []))
            elif words[0] == b"inside":
                listed.append(item(*words[1:]))
            if self.layers:
                self.layers[-1][1][:] = listed

    def component(self):
        return next((c for c in self.network.energised if self.network.names[c] == self.node), None)

    def bounds(self):
        """Each stated bound: its two numbers, its list, its scope and its need."""
        n = self.network
        if self.kind == b"bound":
            return [(*self.numbers, self.inside, n.meters_of(self.component()), n.need[self.component()])]
        if self.kind == b"shortfall":
            return [(*self.numbers, self.inside, n.meters + n.candidates, n.needed)]
        below = lambda end: [m for m in n.candidates if n.price(m) < end]
        return [(rank, outside, some, n.meters + below(end), n.needed) for (_, end, rank, outside), some in self.layers]

    def is_outside(self):
        n, live = self.network, self.network.meters + self.network.candidates
        if self.named:
            listed = [m for m, _ in self.pairs] if self.kind == b"tree" else self.inside
            return not set(listed) <= set(n.meters_of(self.component()))
        if self.kind == b"shortfall":
            return not set(self.inside) <= set(live)
        meters = len(n.case.meters)
        return (
            not {m for m, _ in self.pairs} | set(self.inside) <= set(live)
            or any(m >= meters and m not in self.chosen for m, _ in self.pairs)
            or any(m >= meters and n.price(m) >= end for (_, end, _, _), some in self.layers for m in some)
        )

    def sums_are_wrong(self):
        n, cost = self.network, self.numbers[0]
        shown = sum((n.needed - rank - outside) * (end - start) for (start, end, rank, outside), _ in self.layers)
        return sum(map(n.price, self.chosen)) != cost or shown != cost

    def flaw(self):
        """The name of the first flaw, or None."""
        n, of_pairs = self.network, self.kind in (b"tree", b"cost")
        names = [*self.inside, *self.chosen, *(x for pair in self.pairs for x in pair), *([self.node] if self.named else [])]
        lists = [self.inside, self.chosen, [m for m, _ in self.pairs], [e for _, e in self.pairs]]
        ends = [0, *(layer[0][1] for layer in self.layers)]
        tests = [
            ("UnknownName", lambda: None in names),
            ("NotComponent", lambda: self.named and self.component() is None),
            ("NotInside", self.is_outside),
            ("NotTouched", lambda: any(e not in n.touches[m] for m, e in self.pairs)),
            ("Twice", lambda: any(len(set(some)) < len(some) for some in lists)),
            ("Cycle", lambda: n.rank([e for _, e in self.pairs]) < len(self.pairs)),
            ("WrongLength", lambda: of_pairs and len(self.pairs) != (n.need[self.component()] if self.named else n.needed)),
            ("WrongRank", lambda: self.kind != b"tree" and any(b[0] != n.bound(b[2], b[3])[0] for b in self.bounds())),
            ("WrongOutside", lambda: self.kind != b"tree" and any(b[1] != n.bound(b[2], b[3])[1] for b in self.bounds())),
            ("NotBelow", lambda: self.kind != b"tree" and any(b[0] + b[1] >= b[4] for b in self.bounds())),
            ("WrongLayers", lambda: any(start != end or start >= to for ((start, to, _, _), _), end in zip(self.layers, ends))),
            ("WrongCost", lambda: self.kind == b"cost" and self.sums_are_wrong()),
        ]
        return next((name for name, fails in tests if fails()), None)


def verify(case, content, network_of=Network):
    claims, fault = read_claims(content)
    if claims is None:
        return fault, 3
    network = network_of(case)
    for number, lines in enumerate(claims, 1):
        flaw = Claim(network, lines).flaw()
        if flaw:
            return line("flaw", number, FLAWS.index(flaw) + 1, flaw), 1
    return line("valid", len(claims)), 0
