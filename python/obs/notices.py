"""What the program says on standard error, of each status. The crate obs_notice has the same words, and says when they come.

What the program says beside a whole answer, of the buses of the case, isn't said here: the library hands no numbers of a case back.
"""
from __future__ import annotations

import typing

from . import library

_UNREAD_INPUT = "obs: the standard input could not be read. The lines that had ended before were answered.\n"
_SAID = {
    library.USAGE: (
        "obs: these words are none of: topology N S, report FORM, place FORM CAND, session FORM, verify FORM CERT, trial N SEED,\n"
        "obs: outages FORM, pairs FORM, stations FORM.\n"
        "obs: FORM is: tables N S B M, or cdf C M, or matpower C M; session and verify also take FORM with CAND. Names of files are UTF-8.\n"
    ),
    library.INPUT_FAULT: (
        "obs: a file has a fault. The line on standard output has its part, row, code and name; docs/GUIDE.md has likely causes.\n"
        "obs: of a table row 0 is the header and row k line k + 1 of a spreadsheet, empty lines not counted; of other files it is the line.\n"
    ),
    library.WRITE_FAULT: (
        "obs: the answer could not be written whole: at most a front of it was. Is the disk full, or did the reader stop, as head does?\n"
    ),
    library.NO_MEMORY: "obs: there was no memory, and nothing was written. Allow more (see ulimit -v), or give a smaller case.\n",
}


def notice(status: int, limits: str = "usual", file: typing.Optional[bytes] = None) -> bytes:
    """What is said of a run with this status.

    file   of a read that failed the name of the file, or None where it was the input.
    """
    if status == library.READ_FAULT and file is not None:
        return (
            b"obs: this file could not be read: " + b"".join(map(_byte_said, file)) + b"\n"
            b"obs: is it spelt right, and may you read it? It must be a plain file, no folder or pipe: it is opened more than once.\n"
        )
    if status == library.READ_FAULT:
        return _UNREAD_INPUT.encode()
    if status == library.SESSION_TOO_LONG:
        return (
            f"obs: the session's input has more than {library.most_bytes(limits):,} bytes. "
            "Only the lines that ended within these were answered.\n"
            "obs: begin a new session for the rest, and repeat the edits that are to hold there.\n"
        ).encode()
    return _SAID.get(status, "").encode()


def _byte_said(byte: int) -> bytes:
    """A byte of a name: one on which a terminal would act, and a backslash, by its number."""
    return b"\\x%02x" % byte if byte < 32 or byte in (92, 127) else bytes([byte])
