"""Answers as frames of pandas. The package itself needs no pandas."""
from __future__ import annotations

import dataclasses
import typing

from .answers import Counts, Lines, Outages, Pairs, Plan, Report, Session, Shortfall, Stations, Topology

Rows = typing.List[typing.Tuple[typing.Any, ...]]
Part = typing.Tuple[typing.Tuple[str, ...], Rows]

_LOSSES = ("rank", "needed", "missing", "verdict")


def frame(answer: Lines, part: typing.Optional[str] = None) -> typing.Any:
    """A frame of pandas of an answer, a row for each thing that it lists.

    answer   with its parts, of which the first is taken where none is named, and their columns:

    - Report: islands (bus, island), critical (meter), pairs (component, sort, name, branch), inside (component, sort, name), and counts,
      which is one row (buses, energised, branches, meters, needed, rank, verdict)
    - Plan: chosen (candidate), pairs (sort, name, branch)
    - Shortfall: inside (sort, name)
    - Topology: nodes (node, bus)
    - Outages: outages (branch, rank, needed, missing, verdict)
    - Pairs: classes (meter, class)
    - Stations: stations (station, lost, rank, needed, missing, verdict)
    - Session: steps (line, answer), the answer as it is printed

    Raises ImportError where there is no pandas, ValueError for another part, and TypeError for another answer.
    """
    parts = _parts(answer)
    if not parts:
        raise TypeError(f"of a {type(answer).__name__} there is no frame")
    name = next(iter(parts)) if part is None else part
    if name not in parts:
        raise ValueError(f"parts of a {type(answer).__name__} are {', '.join(parts)}, and not {name!r}")
    import pandas  # type: ignore[import]

    columns, rows = parts[name]
    return pandas.DataFrame(rows, columns=list(columns))


def _parts(answer: Lines) -> typing.Dict[str, Part]:
    """The parts of an answer."""
    if isinstance(answer, Report):
        return _report(answer)
    if isinstance(answer, Plan):
        pairs = [(pair.sort, pair.name, pair.branch) for pair in answer.pairs]
        chosen = [(name,) for name in answer.chosen]
        return {"chosen": (("candidate",), typing.cast(Rows, chosen)), "pairs": (("sort", "name", "branch"), typing.cast(Rows, pairs))}
    if isinstance(answer, Shortfall):
        return {"inside": (("sort", "name"), [(item.sort, item.name) for item in answer.inside])}
    if isinstance(answer, Session):
        return {"steps": (("line", "answer"), [(step.line, str(step.answer)) for step in answer.steps])}
    return _studies(answer)


def _report(answer: Report) -> typing.Dict[str, Part]:
    islands = list((answer.island_of or {}).items())
    critical = [(name,) for name in answer.critical or ()]
    pairs = [(tree.component, pair.sort, pair.name, pair.branch) for tree in answer.trees for pair in tree.pairs]
    inside = [(bound.component, item.sort, item.name) for bound in answer.bounds for item in bound.inside]
    counts = [dataclasses.astuple(answer.counts)] if answer.counts else []
    return {
        "islands": (("bus", "island"), typing.cast(Rows, islands)),
        "critical": (("meter",), typing.cast(Rows, critical)),
        "pairs": (("component", "sort", "name", "branch"), typing.cast(Rows, pairs)),
        "inside": (("component", "sort", "name"), typing.cast(Rows, inside)),
        "counts": (tuple(field.name for field in dataclasses.fields(Counts)), counts),
    }


def _studies(answer: Lines) -> typing.Dict[str, Part]:
    if isinstance(answer, Topology):
        return {"nodes": (("node", "bus"), typing.cast(Rows, list(answer.bus_of.items())))}
    if isinstance(answer, Outages):
        rows = [(one.branch, one.rank, one.needed, one.missing, one.verdict) for one in answer.entries]
        return {"outages": (("branch", *_LOSSES), typing.cast(Rows, rows))}
    if isinstance(answer, Pairs):
        return {"classes": (("meter", "class"), typing.cast(Rows, list(answer.class_of.items())))}
    if isinstance(answer, Stations):
        found = [(one.station, one.lost, one.rank, one.needed, one.missing, one.verdict) for one in answer.entries]
        return {"stations": (("station", "lost", *_LOSSES), typing.cast(Rows, found))}
    return {}
