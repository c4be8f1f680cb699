#!/usr/bin/env python3
"""Compares the two models with each other on random small cases. No program is run.

Usage: tools/models.py [FIRST [COUNT]]

Each number from FIRST (0) on makes one case, for COUNT (1000) cases. The model that tries everything (tools/model.py) and the one by
matroid intersection (tools/model_middle.py) are to give one text for a report and a placement, for a session with edits and asks, for a
certificate of which some lines are spoilt, and for each study of losses. It says how many cases there were of each kind, and stops at the
first that differs.
"""
import collections
import random
import sys

import model_claims
from cases import all_bounds, bytes_of, random_case, session_lines, spoilt_claims
from model import Network
from model_middle import Middle
from model_studies import STUDIES
from model_text import Text, session


def kinds_of(network):
    """What a case has of what is counted below."""
    found = ["a case"]
    live = [*network.meters, *network.candidates]
    found += ["with a live angle meter"] if any(network.case.is_angle(m) for m in live) else []
    found += ["with two absolute parts"] if len(network.absolute.intersection(network.energised)) > 1 else []
    return found + (["short"] if not network.all_observable() else [])


def answers(r, case, network_of):
    """All that is compared of a case, by one of the two models. Both draw the same."""
    text = Text(case, network_of)
    lines = session_lines(r, case)
    claims = bytes_of(spoilt_claims(r, case, r.choice([text.ask("cert"), text.ask("place"), all_bounds(text)])))
    return {
        "report": text.ask("report"),
        "place": text.ask("place"),
        "status": (text.status(), text.status("place")),
        "session": (lines, session(case, True, lines, network_of)),
        "verify": (claims, model_claims.verify(case, claims, network_of)),
        **{study: answered(case, network_of) for study, answered in STUDIES.items()},
    }


def main():
    first, count = (int(word) for word in (sys.argv[1:] + ["0", "1000"][len(sys.argv) - 1 :]))
    seen = collections.Counter()
    for number in range(first, first + count):
        case = random_case(random.Random(number))
        found, wanted = (answers(random.Random(-number), case, network_of) for network_of in (Middle, Network))
        for what in wanted:
            if found[what] != wanted[what]:
                sys.exit(f"case {number}: {what}\n by intersection {found[what]}\n by trying {wanted[what]}")
        seen.update(kinds_of(Network(case)))
    for what, times in seen.items():
        print(f"{times}\t{what}")


main()
