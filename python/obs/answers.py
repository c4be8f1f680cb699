"""The answers. `str` of an answer is the text that was printed.

Names are text; of bytes that are no UTF-8, `surrogateescape` made text. Ranks, needs and numbers outside are numbers of pairs; costs and
prices are in the unit of the table of candidates.
"""
from __future__ import annotations

import dataclasses
import typing

# Lines, each of words and numbers.
Words = typing.Sequence[typing.Sequence[object]]


class Lines:
    """An answer, or a part of one: `lines` gives its lines, each a list of words."""

    def lines(self) -> Words:
        raise NotImplementedError

    def __str__(self) -> str:
        return "".join("\t".join(map(str, words)) + "\n" for words in self.lines())


def _lines_of(parts: typing.Iterable[Lines]) -> typing.List[typing.Sequence[object]]:
    return [words for part in parts for words in part.lines()]


@dataclasses.dataclass(frozen=True)
class Counts(Lines):
    """What a report counts. The case is observable where the rank is what is needed."""

    buses: int  # that the closed switches make of the nodes
    energised: int  # of these, in a part of the network that has a source
    branches: int  # in service between two buses of such a part
    meters: int  # in service that touch such a branch, or an angle branch
    needed: int  # pairs that the energised parts need
    rank: int  # the most pairs that the meters can have
    verdict: str  # observable or short

    @property
    def missing(self) -> int:
        """How many pairs are missing."""
        return self.needed - self.rank

    def lines(self) -> Words:
        names = [field.name for field in dataclasses.fields(self) if field.name != "verdict"]
        return [["count", name, getattr(self, name)] for name in names] + [["verdict", self.verdict]]


@dataclasses.dataclass(frozen=True)
class Item(Lines):
    """A meter or a candidate."""

    sort: str  # meter or candidate
    name: str

    def lines(self) -> Words:
        return [["inside", self.sort, self.name]]


@dataclasses.dataclass(frozen=True)
class Pair(Lines):
    """An item, and the branch that it is given."""

    sort: str  # meter or candidate
    name: str
    branch: str  # its name; of an item of the kind angle the word angle

    def lines(self) -> Words:
        return [["pair", self.sort, self.name, self.branch]]


@dataclasses.dataclass(frozen=True)
class Tree(Lines):
    """The part of the network that its first bus names is observable: these pairs' branches join all its buses, and those of an
    absolute part also with its reference.
    """

    component: str
    pairs: typing.Tuple[Pair, ...]

    def lines(self) -> Words:
        return [["tree", self.component]] + _lines_of(self.pairs)


@dataclasses.dataclass(frozen=True)
class Bound(Lines):
    """The part of the network that its first bus names is short: it can have no more than rank + outside pairs."""

    component: str
    rank: int  # of the branches that the listed meters touch
    outside: int  # how many other live meters the part has
    inside: typing.Tuple[Item, ...]

    def lines(self) -> Words:
        return [["bound", self.component, self.rank, self.outside]] + _lines_of(self.inside)


@dataclasses.dataclass(frozen=True)
class Report(Lines):
    """What a report prints, or one ask of a session. What wasn't asked is None."""

    counts: typing.Optional[Counts] = None
    # a Tree or a Bound for each energised part, or those of one sort
    claims: typing.Optional[typing.Tuple[typing.Union[Tree, Bound], ...]] = None
    island_of: typing.Optional[typing.Dict[str, str]] = None  # for each energised bus, in their order, the first bus of its island
    critical: typing.Optional[typing.Tuple[str, ...]] = None  # the meters of which each loss lowers the rank

    @property
    def observable(self) -> bool:
        """Whether the verdict is observable. Look at counts.energised too: dead parts need nothing. Raises ValueError without counts."""
        if self.counts is None:
            raise ValueError("no verdict was asked for")
        return self.counts.verdict == "observable"

    @property
    def trees(self) -> typing.Tuple[Tree, ...]:
        return tuple(claim for claim in self.claims or () if isinstance(claim, Tree))

    @property
    def bounds(self) -> typing.Tuple[Bound, ...]:
        return tuple(claim for claim in self.claims or () if isinstance(claim, Bound))

    @property
    def islands(self) -> typing.Dict[str, typing.List[str]]:
        """For the first bus of each island the list of its buses. Inside of an island all can be estimated. Raises ValueError without."""
        if self.island_of is None:
            raise ValueError("no islands were asked for")
        found: typing.Dict[str, typing.List[str]] = {}
        for bus, first in self.island_of.items():
            found.setdefault(first, []).append(bus)
        return found

    @property
    def certificate(self) -> str:
        """The trees and bounds as text that `verify` takes. Raises ValueError where none were asked for."""
        if self.claims is None:
            raise ValueError("no trees or bounds were asked for")
        return "".join(map(str, self.claims)) + "end\n"

    def lines(self) -> Words:
        counts = list(self.counts.lines()) if self.counts else []
        islands = [["island", first, bus] for bus, first in (self.island_of or {}).items()]
        critical = [["critical", name] for name in self.critical or ()]
        return counts + _lines_of(self.claims or ()) + islands + critical + [["end"]]


@dataclasses.dataclass(frozen=True)
class Layer(Lines):
    """Why a plan must pay so much: of all that costs less than `high`, no more than rank + outside pairs can be made."""

    low: int  # the price from which the layer goes
    high: int  # the price to which it goes
    rank: int  # of the branches that all items touch which are listed up to this layer
    outside: int  # how many other live items there are below the price `high`
    inside: typing.Tuple[Item, ...]  # the items that this layer adds to the list

    def lines(self) -> Words:
        return [["layer", self.low, self.high, self.rank, self.outside]] + _lines_of(self.inside)


@dataclasses.dataclass(frozen=True)
class Plan(Lines):
    """The cheapest candidates that complete the meters, the pairs that are had then, and why nothing cheaper will do."""

    cost: int
    chosen: typing.Tuple[str, ...]
    pairs: typing.Tuple[Pair, ...]
    layers: typing.Tuple[Layer, ...]

    @property
    def certificate(self) -> str:
        """The plan as text that `verify` takes, with the same candidates."""
        return str(self)

    def lines(self) -> Words:
        chosen = [["chosen", name] for name in self.chosen]
        return [["cost", self.cost]] + chosen + _lines_of(self.pairs) + _lines_of(self.layers) + [["end"]]


@dataclasses.dataclass(frozen=True)
class Shortfall(Lines):
    """All candidates together are too few: with them no more than rank + outside pairs can be made."""

    rank: int  # of the branches that the listed items touch
    outside: int  # how many other live items there are
    inside: typing.Tuple[Item, ...]

    @property
    def certificate(self) -> str:
        """The shortfall as text that `verify` takes, with the same candidates."""
        return str(self)

    def lines(self) -> Words:
        return [["shortfall", self.rank, self.outside]] + _lines_of(self.inside) + [["end"]]


@dataclasses.dataclass(frozen=True)
class Topology(Lines):
    """The buses that the closed switches make."""

    bus_of: typing.Dict[str, str]  # for each node, in their order, the first node of its bus
    buses: int  # how many there are

    def lines(self) -> Words:
        return [["node", node, first] for node, first in self.bus_of.items()] + [["count", "buses", self.buses], ["end"]]


@dataclasses.dataclass(frozen=True)
class Valid(Lines):
    """Every claim of the certificate holds."""

    claims: int  # how many there are

    def lines(self) -> Words:
        return [["valid", self.claims]]


@dataclasses.dataclass(frozen=True)
class Flaw(Lines):
    """The first claim that fails; docs/FORMATS.md has the codes."""

    claim: int  # its number, from 1 on
    code: int
    name: str  # of the flaw, as WrongOutside

    def lines(self) -> Words:
        return [["flaw", self.claim, self.code, self.name]]


@dataclasses.dataclass(frozen=True)
class Ok(Lines):
    """An edit was done. The numbers are of what is energised now: this is no verdict on what the edit cut off."""

    rank: int
    needed: int

    def lines(self) -> Words:
        return [["ok", self.rank, self.needed]]


@dataclasses.dataclass(frozen=True)
class Refused(Lines):
    """A line of a session that is refused; docs/FORMATS.md has the codes."""

    code: int
    name: str

    def lines(self) -> Words:
        return [["refused", self.code, self.name]]


@dataclasses.dataclass(frozen=True)
class Step(Lines):
    """A line of a session and its answer: Ok, Refused, Report (with what was asked), Plan or Shortfall."""

    line: str
    answer: Lines

    def lines(self) -> Words:
        return self.answer.lines()


@dataclasses.dataclass(frozen=True)
class Session(Lines):
    """The lines of a session that are answered, and their answers. Empty lines and those that begin with # are left out."""

    steps: typing.Tuple[Step, ...]
    observable: bool  # the present case, at the end

    @property
    def answers(self) -> typing.Tuple[Lines, ...]:
        return tuple(step.answer for step in self.steps)

    def lines(self) -> Words:
        return _lines_of(self.steps)


@dataclasses.dataclass(frozen=True)
class Outage(Lines):
    """The case with one branch out of service."""

    branch: str
    rank: int  # the most pairs that the meters can have then
    needed: int  # pairs that the energised parts need then: fewer where buses go dead
    verdict: str  # observable or short

    @property
    def missing(self) -> int:
        """How many pairs are missing."""
        return self.needed - self.rank

    def lines(self) -> Words:
        return [["outage", self.branch, self.rank, self.needed, self.verdict]]


@dataclasses.dataclass(frozen=True)
class Outages(Lines):
    """An Outage for each branch in service between two buses of an energised part, in the order of the table."""

    entries: typing.Tuple[Outage, ...]
    observable: bool  # the case, and each of the outage cases

    @property
    def short(self) -> typing.Tuple[str, ...]:
        """The branches of which each outage leaves a case that is short."""
        return tuple(entry.branch for entry in self.entries if entry.verdict == "short")

    def lines(self) -> Words:
        return _lines_of(self.entries) + [["end"]]


@dataclasses.dataclass(frozen=True)
class Pairs(Lines):
    """The meters that are critical together: of a class one can be lost and the rank stays, of two it falls."""

    class_of: typing.Dict[str, str]  # for each meter that has a partner, in their order, the first meter of its class
    observable: bool  # the case

    @property
    def classes(self) -> typing.Dict[str, typing.List[str]]:
        """For the first meter of each class the list of its meters."""
        found: typing.Dict[str, typing.List[str]] = {}
        for meter, first in self.class_of.items():
            found.setdefault(first, []).append(meter)
        return found

    def lines(self) -> Words:
        return [["class", first, meter] for meter, first in self.class_of.items()] + [["end"]]


@dataclasses.dataclass(frozen=True)
class Loss(Lines):
    """The case without the meters of one station."""

    station: str  # its first node
    lost: int  # how many live meters it has
    rank: int  # the most pairs that the others can have
    needed: int  # pairs that the energised parts need
    verdict: str  # observable or short

    @property
    def missing(self) -> int:
        """How many pairs are missing."""
        return self.needed - self.rank

    def lines(self) -> Words:
        return [["station", self.station, self.lost, self.rank, self.needed, self.verdict]]


@dataclasses.dataclass(frozen=True)
class Stations(Lines):
    """A Loss for each station with a live meter, in the order of their first nodes."""

    entries: typing.Tuple[Loss, ...]
    observable: bool  # the case, and what each loss leaves

    @property
    def short(self) -> typing.Tuple[str, ...]:
        """The stations of which each loss leaves a case that is short, by their first nodes."""
        return tuple(entry.station for entry in self.entries if entry.verdict == "short")

    def lines(self) -> Words:
        return _lines_of(self.entries) + [["end"]]
