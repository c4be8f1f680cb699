"""A session that stays between calls."""
from __future__ import annotations

import ctypes
import threading
import typing
import weakref

from . import library
from .answers import Lines
from .calls import refuse, refuse_files, session_words, word_pairs
from .cases import Case, Table
from .faults import Ended
from .reading import Reading

_ROOM = 65536


class Stay:
    """A session of the library: statuses and texts as the calls of include/obs.h give them. Threads may share one."""

    def __init__(self, words: library.WordPairs, limits: str = "usual") -> None:
        """Begins one. `began` is the status, and what was written where it isn't 0."""
        self._kept, self._lock, self._room = library.Kept(), threading.Lock(), _ROOM
        self._text = ctypes.create_string_buffer(self._room)
        weakref.finalize(self, library.end, self._kept)
        status, written = library.begin_once(self._kept, *library.blocks_of(words), self._text, self._room, limits)
        self.began = status, ctypes.string_at(self._text, written)

    def line(self, line: bytes) -> typing.Tuple[int, bytes]:
        """The status and the text. A line that is said again with more room changes nothing more, and has the same answer."""
        with self._lock:
            while True:
                status, written = library.line_once(self._kept, line, self._text, self._room)
                if status != library.TEXT_TOO_LONG:
                    return status, ctypes.string_at(self._text, written)
                self._room *= 4
                self._text = ctypes.create_string_buffer(self._room)

    def end(self) -> None:
        with self._lock:
            library.end(self._kept)


class LiveSession:
    """A session that stays open: a case is read once, and each line is answered as it comes.

        with obs.LiveSession(case) as session:
            print(session.line("trip North-West"), session.observable)

    case         as made by `tables`, `cdf` or `matpower`.
    candidates   a table as in `place`, or None.

    It is ended by `end`, at the end of `with`, or when nothing refers to it any more; a line after that raises Ended. Threads may share
    one, and their lines are then done one after another. Raises what `report` raises.
    """

    def __init__(self, case: Case, candidates: typing.Optional[Table] = None) -> None:
        self._stay = Stay(word_pairs(session_words(case, candidates)), case.limits)
        refuse_files(*self._stay.began)

    def line(self, line: typing.Union[str, bytes]) -> typing.Optional[Lines]:
        """The answer to a line: Ok, Refused, a Report with what was asked, a Plan or a Shortfall; None where it gets no answer.

        line   text or bytes, as one of those of `session`, without a line feed.

        Raises Ended behind `end`, ValueError for a line feed, and NoMemory, where nothing is done.
        """
        return self._say(line)[1]

    @property
    def observable(self) -> bool:
        """Whether the present case is observable. Raises Ended behind `end`."""
        return self._say(b"")[0] == library.DONE

    def end(self) -> None:
        """Ends the session, and gives its memory back."""
        self._stay.end()

    def _say(self, line: typing.Union[str, bytes]) -> typing.Tuple[int, typing.Optional[Lines]]:
        """The status of a line, and its answer."""
        line = line.encode("utf-8", "surrogateescape") if isinstance(line, str) else bytes(line)
        if line.endswith(b"\r"):
            line = line[:-1]
        if b"\n" in line:
            raise ValueError("a line of a session has a line feed in it")
        status, text = self._stay.line(line)
        if status == library.OUT_OF_TURN:
            raise Ended("the session has ended")
        refuse(status, text)
        if not line or line.startswith(b"#"):
            return status, None
        reading = Reading(text)
        return status, reading.end(reading.step(line.decode("utf-8", "surrogateescape")))

    def __enter__(self) -> LiveSession:
        return self

    def __exit__(self, *_: object) -> None:
        self.end()
