"""Answers as JSON, for scripts: what `python -m obs --json WORDS` prints. docs/FORMATS.md has the fields."""
from __future__ import annotations

import dataclasses
import json
import sys
import typing

from . import library
from .answers import Lines, Report
from .calls import read
from .faults import Fault, LibraryMissing
from .notices import notice
from .program import NO_PROGRAM, Unread, content_of, file_words, is_text
from .reading import Reading
from .usage import said, why

Value = typing.Dict[str, typing.Any]


def value(found: typing.Any) -> typing.Any:
    """An answer, or a part of one, as what json writes: its type, its fields, and observable and missing where it has these."""
    if isinstance(found, Lines) and dataclasses.is_dataclass(found):
        fields = {field.name: value(getattr(found, field.name)) for field in dataclasses.fields(found)}
        fields = {name: one for name, one in fields.items() if one is not None}
        names = ["missing"] if hasattr(type(found), "missing") else []
        names += ["observable"] if isinstance(found, Report) and found.counts else []
        return {"type": type(found).__name__, **fields, **{name: getattr(found, name) for name in names}}
    if isinstance(found, (tuple, list)):
        return [value(one) for one in found]
    return found


def run(words: typing.List[bytes], limits: str = "usual") -> int:
    """Prints the answer to these words as one line of JSON, says what `python -m obs` says, and gives the status."""
    file: typing.Optional[bytes] = None
    texts = [word.decode("utf-8", "surrogateescape") for word in words]
    try:
        status, found = _answered(words, texts, limits)
    except Unread as unread:
        file = unread.file
        status, found = library.READ_FAULT, {"unread": file and file.decode("utf-8", "surrogateescape")}
    except MemoryError:
        status, found = library.NO_MEMORY, {}
    except LibraryMissing as missing:
        sys.stderr.write(f"obs: {missing}\n")
        return NO_PROGRAM
    found = {"command": texts[0], **found} if status != library.USAGE else found
    try:
        print(json.dumps({"status": status, **found}), flush=True)
    except OSError:
        status = library.WRITE_FAULT
    sys.stderr.write((said(texts) if status == library.USAGE else "") + notice(status, limits, file).decode("utf-8", "backslashreplace"))
    return status


def _answered(words: typing.List[bytes], texts: typing.List[str], limits: str) -> typing.Tuple[int, Value]:
    """The status, and what the object says beside it."""
    pairs: typing.List[typing.Tuple[bytes, typing.Optional[bytes]]] = [(word, None) for word in words if is_text(word)]
    status, text = library.call(pairs if len(pairs) == len(words) else [], b"", limits)
    if status == library.USAGE:
        return status, {"wrong": why(texts)}
    most = library.most_bytes(limits)
    for k in file_words(words):
        pairs[k] = (words[k], content_of(words[k], most))
    given = sys.stdin.buffer.read(most + 1) if texts[0] == "session" else b""
    if texts[0] != "trial":
        status, text = library.call(pairs, given, limits)
    if status == library.INPUT_FAULT:
        fault = Fault(text.decode())
        return status, {"fault": {"part": fault.part, "row": fault.row, "code": fault.code, "name": fault.name}}
    if status not in (library.DONE, library.SHORT):
        return status, {"text": text.decode("utf-8", "surrogateescape")} if text else {}
    return status, {"answer": _trial(text) if texts[0] == "trial" else value(read(texts[0], status, text, given))}


def _trial(text: bytes) -> Value:
    reading = Reading(text)
    rows, seed = reading.numbers("trial", 2)
    counts = value(reading.counts())
    rest = {name: reading.numbers(name, 1)[0] for name in ("islands", "dips", "edits", "searches")}
    reading.line("end", 0)
    return {"type": "Trial", "rows": rows, "seed": seed, "counts": counts, **rest}
