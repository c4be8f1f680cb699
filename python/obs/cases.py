"""Cases: tables, files in the IEEE Common Data Format or of MATPOWER, and what they are made from."""
from __future__ import annotations

import dataclasses
import math
import numbers
import os
import typing

from . import library

# A file: its path, or its bytes.
Content = typing.Union[str, "os.PathLike[str]", bytes, bytearray, memoryview]


class Frame(typing.Protocol):
    """As much of a frame of pandas as is asked for."""

    columns: typing.Any

    def to_dict(self, orient: str) -> typing.Any:
        ...


# A table: a file, its rows, or a frame. None is a table without rows.
Row = typing.Union[typing.Tuple[typing.Any, ...], typing.List[typing.Any], typing.Mapping[str, typing.Any]]
Table = typing.Union[Content, typing.Iterable[Row], Frame, None]

# The columns of each table. The first is the row's own name.
COLUMNS: typing.Dict[str, typing.Tuple[str, ...]] = {
    "nodes": ("node", "source"),
    "switches": ("switch", "from", "to", "closed"),
    "branches": ("branch", "from", "to", "inservice"),
    "meters": ("meter", "kind", "at", "inservice"),
    "candidates": ("candidate", "kind", "at", "price"),
}
# The columns that a table may have behind these.
FURTHER: typing.Dict[str, typing.Tuple[str, ...]] = {"nodes": ("absolute",)}
_MARKS = (b",", b'"', b"\r", b"\n")


@dataclasses.dataclass(frozen=True)
class Case:
    """A network with its switches and meters. `tables`, `cdf` and `matpower` make it.

    form    tables, cdf or matpower.
    files   pairs of a part (nodes, case, meters, ..) and the bytes of its file.
    limits  usual or large: how much its tables and files, and those that are handed with it, may hold. Files that were read
            from paths end one byte behind it, so a case with other limits is made anew and not from this one.
    """

    form: str
    files: typing.Tuple[typing.Tuple[str, bytes], ...]
    limits: str = "usual"

    def __post_init__(self) -> None:
        library.most_bytes(self.limits)

    def __repr__(self) -> str:
        limits = "" if self.limits == "usual" else f", limits={self.limits!r}"
        return f"Case({self.form}: {', '.join(f'{part} {len(content)} bytes' for part, content in self.files)}{limits})"


def tables(nodes: Table, switches: Table, branches: Table, meters: Table, limits: str = "usual") -> Case:
    """The case of four tables.

    Each is a path, or the bytes of a CSV file with a header line, or rows: tuples in the order below, dictionaries by these names, or a
    frame of pandas with these columns, which may stand in any order:

    - nodes: (node, source), or (node, source, absolute)
    - switches: (switch, from, to, closed), where from and to name nodes; None stands for no switches
    - branches: (branch, from, to, inservice)
    - meters: (meter, kind, at, inservice), where kind is "flow" and at names a branch, or "injection", "zero" or "angle" and at
      names a node

    Rows of nodes have absolute all or none. source, absolute, closed and inservice are True or False, 1 or 0. A name has 1 to 64
    bytes. A table has at most 20,000 rows, a file at most 16,777,216 bytes; with limits="large" they are 1,000,000 and 1,073,741,824.
    Files are read now: what becomes of them later doesn't change the case.

    Raises OSError where a file can't be read, ValueError or TypeError where rows aren't of these columns, and ValueError for other
    limits. A fault of a table is raised by the first call that takes the case.
    """
    given = [("nodes", nodes), ("switches", switches), ("branches", branches), ("meters", meters)]
    return Case("tables", tuple((part, table(part, one, limits)) for part, one in given), limits)


def cdf(case: Content, meters: Table, limits: str = "usual") -> Case:
    """The case of a file in the IEEE Common Data Format (a path or its bytes) and a table of meters, as in `tables`.

    Nodes are named by their numbers, and the k-th branch line is Lk. Raises what `tables` raises.
    """
    return Case("cdf", (("case", content(case, limits)), ("meters", table("meters", meters, limits))), limits)


def matpower(case: Content, meters: Table, limits: str = "usual") -> Case:
    """The case of a MATPOWER file (a path or its bytes) and a table of meters, as in `tables`.

    Nodes are named by their numbers, and the k-th row of the branch table is Lk. Raises what `tables` raises.
    """
    return Case("matpower", (("case", content(case, limits)), ("meters", table("meters", meters, limits))), limits)


def is_path(given: object) -> bool:
    return isinstance(given, (str, os.PathLike))


def content(given: typing.Any, limits: str = "usual") -> bytes:
    """The bytes of a file that is given by its path, or by its bytes."""
    if is_path(given):
        with open(given, "rb") as file:
            # One byte more than obs takes of a file: it answers then that the file is too long.
            return file.read(library.most_bytes(limits) + 1)
    if isinstance(given, (bytes, bytearray, memoryview)):
        return bytes(given)
    raise TypeError(f"a path or bytes are wanted, and not {type(given).__name__}")


def table(part: str, given: Table, limits: str = "usual") -> bytes:
    """The bytes of a table that is given by a path, by bytes or by rows."""
    if is_path(given) or isinstance(given, (bytes, bytearray, memoryview)):
        return content(given, limits)
    rows = list(_rows(given))
    columns = COLUMNS[part] + FURTHER.get(part, ())
    if not any(_has_all(row, columns) for row in rows):
        columns = COLUMNS[part]
    lines = [[name.encode() for name in columns]]
    lines += [_fields(part, columns, number, row) for number, row in enumerate(rows, 1)]
    return b"".join(b",".join(map(_quoted, line)) + b"\n" for line in lines)


def _rows(given: typing.Any) -> typing.Iterable[typing.Any]:
    """The rows of a list, of a frame of pandas, or of nothing at all."""
    if given is None:
        return []
    if hasattr(given, "to_dict") and hasattr(given, "columns"):
        return typing.cast("typing.List[typing.Any]", given.to_dict("records"))
    return typing.cast("typing.Iterable[typing.Any]", given)


def _has_all(row: typing.Any, columns: typing.Sequence[str]) -> bool:
    """Whether a row has all these columns, the further ones among them."""
    if hasattr(row, "keys"):
        return all(name in row.keys() for name in columns)
    return isinstance(row, (tuple, list)) and len(row) == len(columns)


def _fields(part: str, columns: typing.Sequence[str], number: int, row: typing.Any) -> typing.List[bytes]:
    """The fields of a row in the order of the columns."""
    if hasattr(row, "keys"):
        missing = [name for name in columns if name not in row.keys()]
        if missing:
            raise ValueError(f"{part}, row {number}: there is no column {missing[0]}")
        values = [row[name] for name in columns]
    elif isinstance(row, (str, bytes)) or not hasattr(row, "__iter__"):
        raise TypeError(f"{part}, row {number}: a tuple or a dictionary is wanted, and not {type(row).__name__}")
    else:
        values = list(row)
        if len(values) != len(columns):
            raise ValueError(f"{part}, row {number}: there are {len(values)} fields, and {len(columns)} are wanted: {', '.join(columns)}")
    return [_field(part, number, name, value) for name, value in zip(columns, values)]


def _field(part: str, number: int, name: str, value: typing.Any) -> bytes:
    """A field's bytes. What a frame has no value for is empty. Whether a field is right is for obs to say."""
    if isinstance(value, bytes):
        return value
    if isinstance(value, str):
        return value.encode("utf-8", "surrogateescape")
    if value is None or type(value).__name__ == "NAType" or isinstance(value, float) and math.isnan(value):
        return b""
    if type(value).__name__ in ("bool", "bool_"):
        return b"1" if value else b"0"
    # A column of whole numbers becomes one of floating point where a frame lacks a value.
    if isinstance(value, numbers.Integral) or isinstance(value, float) and value.is_integer():
        return b"%d" % int(value)
    raise TypeError(f"{part}, row {number}: {name} is to be text, bytes or a whole number, and not {value!r}")


def _quoted(field: bytes) -> bytes:
    return b'"' + field.replace(b'"', b'""') + b'"' if any(mark in field for mark in _MARKS) else field
