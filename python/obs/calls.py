"""The commands."""
from __future__ import annotations

import typing

from . import library
from .answers import Flaw, Lines, Outages, Pairs, Plan, Report, Session, Shortfall, Stations, Topology, Valid
from .cases import Case, Content, Table, content, table
from .faults import Fault, Malformed, NoMemory, NotUnderstood, SessionTooLong
from .reading import Reading

# What `verify` takes: a path, the bytes of a file, or an answer with a certificate.
Claims = typing.Union[Content, Report, Plan, Shortfall]
# A text is a word, bytes are the contents of a file whose name stands there.
Word = typing.Union[str, bytes]


def report(case: Case) -> Report:
    """A Report: the counts and the verdict, a tree or a bound for each energised part, the islands and the critical meters.

    case   as made by `tables`, `cdf` or `matpower`.

    Raises Fault for the first fault of the files, NoMemory, and LibraryMissing where there is no library.
    """
    return typing.cast(Report, _ask(["report", *_form(case)], limits=case.limits))


def place(case: Case, candidates: Table) -> typing.Union[Plan, Shortfall]:
    """A Plan, which is the cheapest that completes the meters, or a Shortfall.

    candidates   a table as in `tables`: (candidate, kind, at, price), where kind and at are those of a meter, and price is a whole number
                 up to 1,000,000,000, in any unit that is the same for all.

    Raises what `report` raises; rows that aren't of these columns are a ValueError or a TypeError.
    """
    return typing.cast(
        "typing.Union[Plan, Shortfall]", _ask(["place", *_form(case), table("candidates", candidates, case.limits)], limits=case.limits)
    )


def session(
    case: Case, lines: typing.Union[Word, typing.Iterable[Word]], candidates: typing.Optional[Table] = None
) -> Session:
    """A Session: the answers to edits and asks, of which each sees what those before it did.

    lines        text or bytes, one line behind another, or a list of lines of text or bytes: open, close, trip, restore, lose or regain
                 with a blank and a name; status, tree, bound, cert, islands, critical, report; and place where there are candidates.
    candidates   a table as in `place`, or None.

    Raises what `place` raises, SessionTooLong, and ValueError where a line of a list has a line feed in it.
    """
    return typing.cast(Session, _ask(session_words(case, candidates), _input(lines), case.limits))


def verify(case: Case, certificate: Claims, candidates: typing.Optional[Table] = None) -> typing.Union[Valid, Flaw]:
    """Valid, or the Flaw of the first claim that fails.

    certificate  a path, the bytes of a file, or an answer: a Report with its trees and bounds, a Plan or a Shortfall.
    candidates   the table of a Plan or a Shortfall, as in `place`, or None.

    Raises what `place` raises; a Fault of the certificate has the part certificate.
    """
    given = getattr(certificate, "certificate", None)
    claims = content(certificate, case.limits) if given is None else given.encode("utf-8", "surrogateescape")
    return typing.cast("typing.Union[Valid, Flaw]", _ask(["verify", *_form(case), *_with(case, candidates), claims], limits=case.limits))


def outages(case: Case) -> Outages:
    """Outages: for each branch what the meters are good for when it is out of service. Raises what `report` raises."""
    return typing.cast(Outages, _ask(["outages", *_form(case)], limits=case.limits))


def pairs(case: Case) -> Pairs:
    """Pairs: the meters that are critical together, in classes. Raises what `report` raises."""
    return typing.cast(Pairs, _ask(["pairs", *_form(case)], limits=case.limits))


def stations(case: Case) -> Stations:
    """Stations: for each station what the other meters are good for when all of its meters are lost. Raises what `report` raises."""
    return typing.cast(Stations, _ask(["stations", *_form(case)], limits=case.limits))


def topology(nodes: Table, switches: Table, limits: str = "usual") -> Topology:
    """A Topology: for each node the first node of its bus. The two are tables as in `tables`, and so are the limits.

    Raises what `place` raises.
    """
    words: typing.List[Word] = ["topology", table("nodes", nodes, limits), table("switches", switches, limits)]
    return typing.cast(Topology, _ask(words, limits=limits))


def run(words: typing.Sequence[Word], given: bytes = b"", limits: str = "usual") -> typing.Tuple[int, bytes]:
    """Runs any words of the program. Gives the status, which is 0 to 3, and the bytes of the text.

    words   a list: a text is a word, bytes are the contents of a file whose name stands there.
    given   bytes: what a session reads.
    limits  usual or large, as in `tables`.

    Raises NoMemory, SessionTooLong, LibraryMissing, and Malformed where a word has a zero byte in it or is no UTF-8.
    """
    if isinstance(words, (str, bytes)):
        raise TypeError("words are a list, one text for each word")
    status, text = library.call(word_pairs(words), given, limits)
    refuse(status, text, limits)
    return status, text


def word_pairs(words: typing.Sequence[Word]) -> typing.List[typing.Tuple[bytes, typing.Optional[bytes]]]:
    """The pairs of library.call of words as in `run`."""
    return [(b"file", word) if isinstance(word, bytes) else (word.encode("utf-8", "surrogateescape"), None) for word in words]


def refuse(status: int, text: bytes, limits: str = "usual") -> None:
    """Raises what a status says, within these limits, that is no answer and no fault."""
    if status == library.NO_MEMORY:
        raise NoMemory("there was no memory for the answer")
    if status == library.SESSION_TOO_LONG:
        raise SessionTooLong(text.decode("utf-8", "surrogateescape"), library.most_bytes(limits))
    if status == library.MALFORMED:
        raise Malformed("a word is no UTF-8, or has a zero byte in it")
    if status > library.INPUT_FAULT:
        raise NotUnderstood(f"the library answered {status}")


def refuse_files(status: int, text: bytes) -> None:
    """Raises what a status says that is no answer."""
    refuse(status, text)
    if status == library.INPUT_FAULT:
        raise Fault(text.decode())
    if status == library.USAGE:
        raise NotUnderstood("the library has no such command: it is of another version than this package")


def read(command: str, status: int, text: bytes, given: bytes = b"") -> Lines:
    """The answer of a command that ended with 0 or 1 and this text, to what a session read."""
    reading = Reading(text)
    if command == "session":
        answered = [line.decode("utf-8", "surrogateescape") for line in _answered(given)]
        return reading.end(reading.session(answered, status == library.DONE))
    if command in ("outages", "pairs", "stations"):
        study: typing.Callable[[bool], Lines] = {"outages": reading.outages, "pairs": reading.classes}.get(command, reading.stations)
        return reading.end(study(status == library.DONE))
    calls: typing.Dict[str, typing.Callable[[], Lines]]
    calls = {"report": reading.report, "place": reading.placement, "verify": reading.verified, "topology": reading.topology}
    return reading.end(calls[command]())


def _ask(words: typing.Sequence[Word], given: bytes = b"", limits: str = "usual") -> Lines:
    """The answer to these words, where there is one."""
    status, text = run(words, given, limits)
    refuse_files(status, text)
    return read(str(words[0]), status, text, given)


def session_words(case: Case, candidates: typing.Optional[Table]) -> typing.List[Word]:
    """The words of a session, as in `run`."""
    return ["session", *_form(case), *_with(case, candidates)]


def _form(case: Case) -> typing.List[Word]:
    if not isinstance(case, Case):
        raise TypeError("a case is what obs.tables, obs.cdf or obs.matpower makes of files")
    return [case.form, *(one for _, one in case.files)]


def _with(case: Case, candidates: typing.Optional[Table]) -> typing.List[Word]:
    return [] if candidates is None else ["with", table("candidates", candidates, case.limits)]


def _input(lines: typing.Union[Word, typing.Iterable[Word]]) -> bytes:
    """The bytes that a session reads."""

    def one(line: Word) -> bytes:
        return line.encode("utf-8", "surrogateescape") if isinstance(line, str) else bytes(line)

    if isinstance(lines, (str, bytes, bytearray, memoryview)):
        return one(lines)
    found = [one(line) for line in lines]
    if any(b"\n" in line for line in found):
        raise ValueError("a line of a session has a line feed in it")
    return b"".join(line + b"\n" for line in found)


def _answered(given: bytes) -> typing.List[bytes]:
    """The lines that get an answer."""
    lines = [line[:-1] if line.endswith(b"\r") else line for line in given.split(b"\n")]
    return [line for line in lines if line and not line.startswith(b"#")]
