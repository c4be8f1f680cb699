"""python -m obs WORDS answers as the program obs does, and python -m obs --large WORDS as obs-large.

With --json before the words it prints one line of JSON; docs/FORMATS.md has the fields.
"""
from __future__ import annotations

import os
import signal
import sys

from . import as_json, program, usage


def main() -> int:
    words, limits, is_json = sys.argv[1:], "usual", False
    while words[:1] in (["--large"], ["--json"]):
        limits, is_json = ("large", is_json) if words[0] == "--large" else (limits, True)
        words = words[1:]
    # An interrupt ends it as it ends any program.
    signal.signal(signal.SIGINT, signal.SIG_DFL)
    encoded = [os.fsencode(word) for word in words]
    texts = [word.decode("utf-8", "surrogateescape") for word in encoded]
    answer = usage.asked(texts)
    if answer is not None:
        sys.stdout.write(answer)
        return 0
    if is_json:
        return as_json.run(encoded, limits)
    text = usage.said(texts)
    misplaced = [word for word in texts if word in ("--large", "--json")]
    if text and misplaced:
        text = f"obs: {misplaced[0]} stands before the words.\n"
    if text:
        os.write(2, text.encode("utf-8", "backslashreplace"))
    return program.run(encoded, limits)


if __name__ == "__main__":
    sys.exit(main())
