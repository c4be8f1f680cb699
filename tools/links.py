#!/usr/bin/env python3
"""Looks whether each link of the pages leads to a file of the repository and to a heading that stands there.

Usage: tools/links.py

The pages are the .md files at the top, in docs, in examples and beside each crate. It says each link that leads nowhere, and then how many
there are; the status is 1 where one leads nowhere. Links to other machines aren't followed. In an unpacked archive, which has no sources,
links to files that aren't there are passed over.
"""
import re
import sys
import unicodedata
from pathlib import Path

HOME = Path(__file__).resolve().parent.parent
IS_CHECKOUT = (HOME / "crates.txt").exists()


def prose(page):
    """The text of a page without its blocks of code."""
    lines = page.read_text(encoding="utf-8").split("\n")
    return "\n".join(line for line in lines if not line.startswith("    "))


def anchor(heading):
    """The name by which a heading is linked."""
    heading = re.sub(r"\[([^]]*)\]\([^)]*\)", r"\1", heading).strip().lower()
    kept = (it for it in heading if it in "-_ " or unicodedata.category(it)[0] in "LN")
    return "".join(kept).replace(" ", "-")


def anchors(page):
    """The names of all headings of a page; the second of one name ends in -1, and so on."""
    found, count = set(), {}
    for heading in re.findall(r"^#+ (.*)$", prose(page), re.MULTILINE):
        name = anchor(heading)
        found.add(f"{name}-{count[name]}" if name in count else name)
        count[name] = count.get(name, 0) + 1
    return found


def fault(page, target):
    """Why a link leads nowhere, or nothing."""
    name, _, heading = target.partition("#")
    led = (page.parent / name).resolve() if name else page
    if not led.exists():
        return "no such file" if IS_CHECKOUT else ""
    if heading and led.suffix == ".md" and heading not in anchors(led):
        return "no such heading"
    return ""


def main():
    pages = [it for part in ("*.md", "docs/*.md", "examples/*.md", "crates/*/*.md") for it in sorted(HOME.glob(part))]
    count = broken = 0
    for page in pages:
        for target in re.findall(r"\]\(([^)\s]+)\)", prose(page)):
            if re.match(r"[a-z]+:", target):
                continue
            count += 1
            why = fault(page, target)
            if why:
                broken += 1
                print(f"{page.relative_to(HOME)}: {target}: {why}")
    print(f"{count} links of {len(pages)} pages, {broken} broken")
    return 1 if broken or not count else 0


sys.exit(main())
