"""What is raised where there is no answer."""
from __future__ import annotations


class Error(Exception):
    """There is no answer."""


class Fault(Error):
    """A file is too long or has a fault, the first of all; docs/FORMATS.md has the codes, docs/GUIDE.md their likely causes.

    part   nodes, switches, branches, meters, candidates, cdf, matpower or certificate.
    row    of a table the row, where the header is 0; else the line, from 1 on, or 0 where it is of no line.
    code   the number of the fault.
    name   its name, as BadFlag.
    text   the line that is printed.
    """

    part: str
    row: int
    code: int
    name: str
    text: str

    def __init__(self, text: str) -> None:
        _, self.part, row, code, self.name = text.rstrip("\n").split("\t")
        self.row, self.code, self.text = int(row), int(code), text
        where = "line" if self.part in ("cdf", "matpower", "certificate") else "row"
        super().__init__(f"{self.part}, {where} {self.row}: {self.name} (code {self.code})")


class SessionTooLong(Error):
    """The lines of a session have more bytes than a file may have. `text` has the answers to those that end within so many."""

    def __init__(self, text: str, most: int = 16_777_216) -> None:
        self.text = text
        super().__init__(f"the lines of the session have more than {most:,} bytes")


class Ended(Error, ValueError):
    """A line was said to a session that has ended."""


class NoMemory(Error, MemoryError):
    """There was no memory for the answer."""


class Malformed(Error, ValueError):
    """The words and contents that were handed to the library are none."""


class NotUnderstood(Error):
    """The library printed what this package doesn't know: they are of different versions."""


class LibraryMissing(Error, OSError):
    """There is no library where it is looked for, or it can't be loaded."""
