"""The program: the words of a command line, with its files and the standard streams, answered by the bytes and the status of obs."""
from __future__ import annotations

import os
import typing

from . import library
from .faults import LibraryMissing
from .notices import notice
from .stays import Stay

# The status where there is no library, as that of ./obs where it can't build the program.
NO_PROGRAM = 70
_INPUT, _OUTPUT, _ERRORS, _PIECE = 0, 1, 2, 65536


class Unread(Exception):
    """A file could not be read, or the standard input where none is named."""

    def __init__(self, file: typing.Optional[bytes] = None) -> None:
        self.file = file


class Unwritten(Exception):
    """The answer could not be written whole."""


def run(words: typing.Sequence[bytes], limits: str = "usual") -> int:
    """Answers these words on the standard streams, and gives the status.

    words    those behind the program's own name.
    limits   usual, as obs has them, or large, as obs-large has.
    """
    file = None
    try:
        status = _answer(list(words) if all(map(is_text, words)) else [], limits)
    except Unread as unread:
        status, file = library.READ_FAULT, unread.file
    except Unwritten:
        status = library.WRITE_FAULT
    except MemoryError:
        status = library.NO_MEMORY
    except LibraryMissing as missing:
        _say(f"obs: {missing}\n".encode())
        return NO_PROGRAM
    _say(notice(status, limits, file))
    return status


def is_text(word: bytes) -> bool:
    try:
        word.decode()
    except UnicodeDecodeError:
        return False
    return True


def file_words(words: typing.Sequence[bytes]) -> typing.List[int]:
    """The positions of the words that name files, in words that have a form."""
    first = {b"topology": 1, b"trial": len(words)}.get(words[0], 2) if words else 0
    behind = 6 if words[1:2] == [b"tables"] else 4
    offers = words[:1] in ([b"session"], [b"verify"]) and words[behind : behind + 1] == [b"with"] and len(words) > behind + 1
    return [k for k in range(first, len(words)) if not (offers and k == behind)]


def _answer(words: typing.List[bytes], limits: str) -> int:
    """Writes the answer, and gives the status. Words have a form or not whatever the files hold, so they are tried with none first."""
    pairs: typing.List[typing.Tuple[bytes, typing.Optional[bytes]]] = [(word, None) for word in words]
    status, text = library.call(pairs, b"", limits)
    if status == library.USAGE or not file_words(words):
        _write(text)
        return status
    for k in file_words(words):
        pairs[k] = (words[k], content_of(words[k], library.most_bytes(limits)))
    if words[0] == b"session":
        return _session(pairs, limits)
    status, text = library.call(pairs, b"", limits)
    _write(text)
    return status


def content_of(name: bytes, most: int) -> bytes:
    """The bytes of a file, or one more than are taken of it. As the program does it looks for a place in the file, which a pipe has not."""
    try:
        with open(name, "rb", buffering=0) as file:
            file.seek(0)
            found = []
            while most >= 0:
                piece = file.read(min(most + 1, 1 << 24))
                if not piece:
                    break
                found.append(piece)
                most -= len(piece)
            return b"".join(found)
    except OSError as error:
        raise Unread(name) from error


def _session(pairs: library.WordPairs, limits: str) -> int:
    """Answers each line of the standard input as it comes."""
    stay = Stay(pairs, limits)
    status, text = stay.began
    _write(text)
    if status != library.DONE:
        return status
    taken = _Input(library.most_bytes(limits))
    for line in taken.lines():
        line = line[:-1] if line.endswith(b"\r") else line
        if not line or line.startswith(b"#"):
            continue
        status, text = stay.line(line)
        if status == library.NO_MEMORY:
            return status
        _write(text)
    return library.SESSION_TOO_LONG if taken.is_too_long else stay.line(b"")[0]


class _Input:
    """The lines of the standard input, without their line feeds, as far as they end within so many bytes."""

    def __init__(self, most: int) -> None:
        self.left, self.is_too_long = most, False

    def lines(self) -> typing.Iterator[bytes]:
        begun: typing.List[bytes] = []
        while not self.is_too_long:
            piece = self._piece()
            *ended, rest = piece.split(b"\n")
            if ended:
                yield b"".join([*begun, ended[0]])
                yield from ended[1:]
                begun = []
            begun.append(rest)
            if not piece:
                break
        if not self.is_too_long and any(begun):
            yield b"".join(begun)

    def _piece(self) -> bytes:
        """What comes next, and nothing at the end."""
        try:
            piece = os.read(_INPUT, _PIECE)
        except OSError as error:
            raise Unread from error
        self.is_too_long = len(piece) > self.left
        piece = piece[: self.left]
        self.left -= len(piece)
        return piece


def _write(text: bytes) -> None:
    view = memoryview(text)
    while view:
        try:
            view = view[os.write(_OUTPUT, view) :]
        except OSError as error:
            raise Unwritten from error


def _say(text: bytes) -> None:
    try:
        os.write(_ERRORS, text)
    except OSError:
        pass
