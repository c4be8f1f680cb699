"""The version of this package, and that of the library which it calls."""
from __future__ import annotations

from . import library

VERSION = "0.8.5"


def version() -> str:
    """The version of the library, as "0.8.5". That of this package is `obs.__version__`.

    Raises LibraryMissing where there is no library, or one without this call.
    """
    number = library.load("obs_version")()
    return f"{number // 1_000_000}.{number // 1_000 % 1_000}.{number % 1_000}"
