"""Which words have a form, by the rules of docs/FORMATS.md, and the line that answers others."""
import os

from model_studies import STUDIES

FILES_OF = {"tables": 4, "cdf": 2, "matpower": 2}


def behind_form(words):
    """What stands behind the form of a case and its files, or None where there is no such form."""
    count = FILES_OF.get(words[0]) if words else None
    return words[count + 1 :] if count and len(words) > count else None


def is_number(word, least, most):
    return word.isascii() and word.isdigit() and len(word) <= 19 and least <= int(word) <= most


def have_form(words):
    """Whether these words are a command with what it needs. None has a byte outside ASCII."""
    if not words:
        return False
    command, rest = words[0], words[1:]
    if command == "topology":
        return len(rest) == 2
    if command == "trial":
        return len(rest) == 2 and is_number(rest[0], 1, 100) and is_number(rest[1], 0, 10**19 - 1)
    more = behind_form(rest)
    if more is None:
        return False
    is_with = more[:1] == ["with"]
    return {
        **{study: len(more) == 0 for study in STUDIES},
        "report": len(more) == 0,
        "place": len(more) == 1,
        "session": len(more) == 0 or (len(more) == 2 and is_with),
        "verify": len(more) == 1 or (len(more) == 3 and is_with),
    }.get(command, False)


def usage():
    """The usage line, as the page has it."""
    page = os.path.join(os.path.dirname(os.path.abspath(__file__)), "..", "docs", "FORMATS.md")
    with open(page, encoding="utf-8") as file:
        return next(line[4:] for line in file if line.startswith("    usage: obs "))
