"""How names, rows and numbers are written for people. Names are text as model_reads makes it."""

KINDS = {"flow": "flow on", "injection": "injection at", "zero": "zero at", "angle": "angle at"}
MARKS_OF_LISTS = ",;"


def shown(name):
    """A name that can be read, whatever bytes it has: what isn't UTF-8 as in Windows-1252, and what can't be seen by its number."""
    data = name.encode("utf-8", "surrogateescape")
    try:
        text = data.decode("utf-8")
    except UnicodeDecodeError:
        text = data.decode("cp1252", "backslashreplace")
    return "".join(c if c.isprintable() else c.encode("unicode_escape").decode() for c in text)


def quoted(name):
    """The same for a list, in quotes where it would else be taken for something else."""
    text = shown(name)
    return f'"{text}"' if text != text.strip() or any(mark in text for mark in MARKS_OF_LISTS) else text


def counted(number, one, many=None):
    return f"{number:,} {one if number == 1 else many or one + 's'}"


class Words:
    """The words for the rows of a case. No list in a sentence has more than `most` names."""

    def __init__(self, answer, most):
        self.answer = answer
        self.most = most

    def list(self, names):
        names = list(names)
        rest = len(names) - self.most
        return ", ".join(names[: self.most]) + (f" and {rest:,} more" if rest > 0 else "")

    def bus(self, u):
        return quoted(self.answer.names[u])

    def buses(self, buses):
        return self.list(self.bus(u) for u in buses)

    def nodes(self, u):
        """A bus with the nodes that it has."""
        nodes = self.answer.nodes[u]
        if len(nodes) == 1:
            return self.bus(u)
        others = self.list(quoted(self.answer.case.nodes[node][0]) for node in nodes[1:])
        return f"{self.bus(u)} (with {others})"

    def branch_name(self, e):
        return quoted(self.answer.case.branches[e][0])

    def branch(self, e):
        """A branch with its two ends, which are buses."""
        _, start, end, _ = self.answer.case.branches[e]
        u, v = self.answer.bus[start], self.answer.bus[end]
        return f"{self.branch_name(e)}, from {self.bus(u)} to {self.bus(v)}"

    def place(self, row):
        """The kind of a meter or a candidate, and where it is."""
        if row[1] == "flow":
            return f"{KINDS[row[1]]} {self.branch(row[2])}"
        node, bus = quoted(self.answer.case.nodes[row[2]][0]), self.bus(self.answer.bus[row[2]])
        return f"{KINDS[row[1]]} {node}" + (f", bus {bus}" if node != bus else "")

    def meter(self, m):
        row = self.answer.case.meters[m]
        return f"{quoted(row[0])}: {self.place(row)}"

    def candidate(self, c):
        row = self.answer.case.candidates[c]
        return f"{quoted(row[0])} for {row[3]:,}: {self.place(row)}"
