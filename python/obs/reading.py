"""How answers are read from the printed lines."""
from __future__ import annotations

import dataclasses
import typing

from .answers import Bound, Counts, Flaw, Item, Layer, Lines, Loss, Ok, Outage, Outages, Pair, Pairs, Plan, Refused, Report, Session
from .answers import Shortfall, Stations, Step, Topology, Tree, Valid
from .faults import NotUnderstood

# The parts of a report that each ask of a session has.
ASKS = {
    "status": ("counts",),
    "tree": ("claims",),
    "bound": ("claims",),
    "cert": ("claims",),
    "islands": ("island_of",),
    "critical": ("critical",),
    "report": ("counts", "claims", "island_of", "critical"),
}


Found = typing.TypeVar("Found")


class Reading:
    """Printed lines, read from the top."""

    def __init__(self, text: bytes) -> None:
        self.lines = [line.split("\t") for line in text.decode("utf-8", "surrogateescape").split("\n")]
        self.at = 0
        if self.lines.pop() != [""]:
            raise NotUnderstood("the text doesn't end with a line feed")

    def word(self) -> typing.Optional[str]:
        """The first word of the next line, or None behind the last."""
        return self.lines[self.at][0] if self.at < len(self.lines) else None

    def line(self, word: str, count: int) -> typing.List[str]:
        """The words behind this first word of the next line, which are so many."""
        if self.word() != word or len(self.lines[self.at]) != count + 1:
            found = "\t".join(self.lines[self.at]) if self.at < len(self.lines) else "nothing more"
            raise NotUnderstood(f"a line {word} was expected, and there is: {found}")
        self.at += 1
        return self.lines[self.at - 1][1:]

    def all(self, word: str, count: int) -> typing.List[typing.List[str]]:
        """The words of all next lines that begin with this word."""
        found: typing.List[typing.List[str]] = []
        while self.word() == word:
            found.append(self.line(word, count))
        return found

    def numbers(self, word: str, count: int) -> typing.List[int]:
        return list(map(int, self.line(word, count)))

    def pairs(self) -> typing.Tuple[Pair, ...]:
        return tuple(Pair(*words) for words in self.all("pair", 3))

    def items(self) -> typing.Tuple[Item, ...]:
        return tuple(Item(*words) for words in self.all("inside", 2))

    def counts(self) -> Counts:
        found = [int(self.line("count", 2)[1]) for _ in dataclasses.fields(Counts)[:-1]]
        buses, energised, branches, meters, needed, rank = found
        return Counts(buses, energised, branches, meters, needed, rank, *self.line("verdict", 1))

    def claims(self) -> typing.Tuple[typing.Union[Tree, Bound], ...]:
        found: typing.List[typing.Union[Tree, Bound]] = []
        while self.word() in ("tree", "bound"):
            if self.word() == "tree":
                found.append(Tree(self.line("tree", 1)[0], self.pairs()))
            else:
                component, rank, outside = self.line("bound", 3)
                found.append(Bound(component, int(rank), int(outside), self.items()))
        return tuple(found)

    def island_of(self) -> typing.Dict[str, str]:
        return {bus: first for first, bus in self.all("island", 2)}

    def critical(self) -> typing.Tuple[str, ...]:
        return tuple(name for name, in self.all("critical", 1))

    def report(self, parts: typing.Tuple[str, ...] = ASKS["report"]) -> Report:
        found = Report(**{part: getattr(self, part)() for part in parts})
        self.line("end", 0)
        return found

    def layers(self) -> typing.Tuple[Layer, ...]:
        found: typing.List[Layer] = []
        while self.word() == "layer":
            low, high, rank, outside = self.numbers("layer", 4)
            found.append(Layer(low, high, rank, outside, self.items()))
        return tuple(found)

    def placement(self) -> typing.Union[Plan, Shortfall]:
        found: typing.Union[Plan, Shortfall]
        if self.word() == "shortfall":
            rank, outside = self.numbers("shortfall", 2)
            found = Shortfall(rank, outside, self.items())
        else:
            cost, = self.numbers("cost", 1)
            found = Plan(cost, tuple(name for name, in self.all("chosen", 1)), self.pairs(), self.layers())
        self.line("end", 0)
        return found

    def topology(self) -> Topology:
        bus_of = {node: first for node, first in self.all("node", 2)}
        found = Topology(bus_of, int(self.line("count", 2)[1]))
        self.line("end", 0)
        return found

    def outages(self, observable: bool) -> Outages:
        entries = [Outage(name, int(rank), int(needed), word) for name, rank, needed, word in self.all("outage", 4)]
        self.line("end", 0)
        return Outages(tuple(entries), observable)

    def classes(self, observable: bool) -> Pairs:
        class_of = {meter: first for first, meter in self.all("class", 2)}
        self.line("end", 0)
        return Pairs(class_of, observable)

    def stations(self, observable: bool) -> Stations:
        entries = [Loss(name, int(lost), int(rank), int(needed), word) for name, lost, rank, needed, word in self.all("station", 5)]
        self.line("end", 0)
        return Stations(tuple(entries), observable)

    def verified(self) -> typing.Union[Valid, Flaw]:
        if self.word() == "valid":
            return Valid(*self.numbers("valid", 1))
        claim, code, name = self.line("flaw", 3)
        return Flaw(int(claim), int(code), name)

    def step(self, line: str) -> Lines:
        """The answer to a line of a session."""
        if self.word() == "refused":
            code, name = self.line("refused", 2)
            return Refused(int(code), name)
        if line == "place":
            return self.placement()
        return self.report(ASKS[line]) if line in ASKS else Ok(*self.numbers("ok", 2))

    def session(self, lines: typing.List[str], observable: bool) -> Session:
        return Session(tuple(Step(line, self.step(line)) for line in lines), observable)

    def end(self, found: Found) -> Found:
        """What was found, where nothing more stands."""
        if self.at != len(self.lines):
            self.line("nothing more", 0)
        return found
