"""The library: where it is, and its calls."""
from __future__ import annotations

import ctypes
import os
import threading
import typing

from .faults import LibraryMissing

FILE = "libobs.so"
VARIABLE = "OBS_LIBRARY"

# The limits of a call: the most rows of a table and bytes of a file.
LIMITS = {"usual": (20_000, 16_777_216), "large": (1_000_000, 1_073_741_824)}

# How many bytes of room a call is given at the most before it is known that its text is longer.
MOST_AT_FIRST = 16_777_216

DONE, SHORT, USAGE, INPUT_FAULT, TEXT_TOO_LONG, NO_MEMORY, SESSION_TOO_LONG, MALFORMED, OUT_OF_TURN = 0, 1, 2, 3, 5, 6, 7, 8, 9
# What the program answers where a file could not be read, and where its text could not be written.
READ_FAULT, WRITE_FAULT = 4, 5

_lock = threading.Lock()
_loaded: typing.Dict[typing.Tuple[str, str], typing.Any] = {}

# A word, and the bytes of the file that it names, or None where it names none.
WordPairs = typing.Sequence[typing.Tuple[bytes, typing.Optional[bytes]]]
# The words, the contents and the lengths of a call.
Blocks = typing.Tuple[bytes, bytes, typing.List[int]]


def places() -> typing.List[str]:
    """The files that may be the library, the first that is there is taken."""
    package = os.path.dirname(os.path.abspath(__file__))
    home = os.path.dirname(os.path.dirname(package))
    folders = [package, os.path.dirname(package), home, os.path.join(home, "crates", "obs_c", "out")]
    return [os.path.join(folder, FILE) for folder in folders]


def path() -> str:
    """The file of the library."""
    given = os.environ.get(VARIABLE)
    if given:
        return given
    for place in places():
        if os.path.exists(place):
            return place
    is_checkout = os.path.exists(os.path.join(os.path.dirname(places()[-2]), "crates.txt"))
    build = "build it by tools/library, or " if is_checkout else ""
    raise LibraryMissing(f"there is no {FILE}: {build}name it by the variable {VARIABLE}")


class Kept(ctypes.Structure):
    """struct obs_session of include/obs.h: a session that stays, or none. All calls with it are those of one file."""

    _fields_ = [("at", ctypes.c_void_p), ("full", ctypes.c_bool)]

    def __init__(self) -> None:
        super().__init__()
        self.file = os.path.abspath(path())


_SIZE, _BLOCK, _SIZES, _KEPT = ctypes.c_size_t, ctypes.c_char_p, ctypes.POINTER(ctypes.c_size_t), ctypes.POINTER(Kept)
_WORDS: typing.List[typing.Any]
_TEXT: typing.List[typing.Any]
_WORDS, _TEXT = [_BLOCK, _SIZE, _BLOCK, _SIZE, _SIZES, _SIZE], [ctypes.c_void_p, _SIZE, _SIZES]
_CALLS: typing.Dict[str, typing.Tuple[typing.Any, typing.List[typing.Any]]] = {
    "obs_run": (ctypes.c_uint8, [*_WORDS, _BLOCK, _SIZE, *_TEXT]),
    "obs_run_within": (ctypes.c_uint8, [ctypes.c_uint8, *_WORDS, _BLOCK, _SIZE, *_TEXT]),
    "obs_session_begin": (ctypes.c_uint8, [_KEPT, *_WORDS, *_TEXT]),
    "obs_session_begin_within": (ctypes.c_uint8, [ctypes.c_uint8, _KEPT, *_WORDS, *_TEXT]),
    "obs_session_line": (ctypes.c_uint8, [_KEPT, _BLOCK, _SIZE, *_TEXT]),
    "obs_session_end": (None, [_KEPT]),
    "obs_version": (ctypes.c_uint32, []),
}


def load(name: str = "obs_run", file: typing.Optional[str] = None) -> typing.Any:
    """The call of this name of include/obs.h, with the types of its parameters, of this file or of that which is found."""
    file = file or os.path.abspath(path())
    with _lock:
        if (file, name) not in _loaded:
            try:
                call = getattr(ctypes.CDLL(file), name)
            except (OSError, AttributeError) as error:
                raise LibraryMissing(f"{file} can't be loaded: {error}") from error
            call.restype, call.argtypes = _CALLS[name]
            _loaded[file, name] = call
        return _loaded[file, name]


def most_bytes(limits: str) -> int:
    """The most bytes of a file within these limits."""
    if limits not in LIMITS:
        raise ValueError(f"limits are {' or '.join(LIMITS)}, and not {limits!r}")
    return LIMITS[limits][1]


def within(name: str, limits: str, file: typing.Optional[str] = None) -> typing.Tuple[typing.Any, typing.Tuple[int, ...]]:
    """The call of this name within these limits, and what stands before its blocks."""
    most_bytes(limits)
    return (load(name, file), ()) if limits == "usual" else (load(f"{name}_within", file), (1,))


def sizes_of(lengths: typing.Sequence[int]) -> typing.Any:
    # No pointer may be null: where there are no lengths there is room for one, and all bytes of Python have a zero byte behind them.
    return (ctypes.c_size_t * max(len(lengths), 1))(*lengths)


def written_in(room: int) -> ctypes.c_size_t:
    # What stands there first is no number that a call writes.
    return ctypes.c_size_t(room + 1)


def call_once(
    words: bytes, contents: bytes, lengths: typing.Sequence[int], given: bytes, text: typing.Any, room: int, limits: str = "usual"
) -> typing.Tuple[int, int]:
    """One call with these blocks. Gives the status, and how many bytes are written.

    words      bytes: each word, ended by a zero byte.
    contents   bytes: the contents of all files, one behind another.
    lengths    a list of numbers of bytes, one for each word.
    given      bytes: what a session reads.
    text       a ctypes array of at least one char.
    room       how many of these chars may be written.
    limits     usual or large.
    """
    written = written_in(room)
    run, first = within("obs_run", limits)
    status = run(
        *first, words, len(words), contents, len(contents), sizes_of(lengths), len(lengths), given, len(given), text, room, ctypes.byref(written)
    )
    return status, written.value


def begin_once(
    kept: Kept, words: bytes, contents: bytes, lengths: typing.Sequence[int], text: typing.Any, room: int, limits: str = "usual"
) -> typing.Tuple[int, int]:
    """Begins a session in a Kept that has none, with the blocks of call_once. Gives the status, and how many bytes are written."""
    written = written_in(room)
    begin, first = within("obs_session_begin", limits, kept.file)
    status = begin(
        *first, kept, words, len(words), contents, len(contents), sizes_of(lengths), len(lengths), text, room, ctypes.byref(written)
    )
    return status, written.value


def line_once(kept: Kept, line: bytes, text: typing.Any, room: int) -> typing.Tuple[int, int]:
    """One line of a session, as bytes without a line end. Gives the status, and how many bytes are written."""
    written = written_in(room)
    status = load("obs_session_line", kept.file)(kept, line, len(line), text, room, ctypes.byref(written))
    return status, written.value


def end(kept: Kept) -> None:
    """Ends a session, where there is one."""
    load("obs_session_end", kept.file)(kept)


def blocks_of(words: WordPairs) -> Blocks:
    """The words, contents and lengths of a call, of pairs as in `call`."""
    block = b"".join(word + b"\0" for word, _ in words)
    return block, b"".join(content for _, content in words if content), [len(content or b"") for _, content in words]


def call(words: WordPairs, given: bytes = b"", limits: str = "usual") -> typing.Tuple[int, bytes]:
    """Calls until the block has room for the text. Gives the status and the text.

    words   a list of pairs: the bytes of a word, and the bytes of the file that it names, or None where it names none.
    given   bytes: what a session reads.
    limits  usual or large.
    """
    block, contents, lengths = blocks_of(words)
    room = min(65536 + 2 * len(contents) + 4 * len(given), MOST_AT_FIRST)
    while True:
        text = ctypes.create_string_buffer(room)
        status, written = call_once(block, contents, lengths, given, text, room, limits)
        if status != TEXT_TOO_LONG:
            return status, ctypes.string_at(text, written)
        room *= 4
