"""The text of a study of losses, and its status, from the definitions alone.

STUDIES has the commands. One that is left out there has no form for all tools here; the usage line in docs/FORMATS.md is to lack it too.
"""
import copy

from model import firsts
from model_text import line


def verdict_word(rank, needed):
    return "observable" if rank == needed else "short"


def outages(case, network_of):
    """Each live branch of an energised component is out of service once: the rank and the needed number of that case."""
    n, text, is_good = network_of(case), "", True
    for e in n.live_branches:
        out = copy.deepcopy(case)
        out.branches[e][3] = False
        after = network_of(out)
        rank = after.rho(after.meters)
        text += line("outage", case.branches[e][0], rank, after.needed, verdict_word(rank, after.needed))
        is_good = is_good and after.all_observable()
    return text + "end\n", 0 if is_good and n.all_observable() else 1


def pairs(case, network_of):
    """Each meter that has partners, with the first of its class: itself and its partners."""
    n, text = network_of(case), ""
    for m in n.meters:
        partners = n.partners(m, n.meters)
        if partners:
            text += line("class", case.meters[min(m, *partners)][0], case.meters[m][0])
    return text + "end\n", 0 if n.all_observable() else 1


def stations(case, network_of):
    """Of each station with a live meter how many it has, and the rank without these."""
    n, text, is_good = network_of(case), "", True
    of = n.stations()
    node_of = lambda row: case.branches[row[2]][1] if row[1] == "flow" else row[2]
    station = {m: of[node_of(case.meters[m])] for m in n.meters}
    for first in sorted(set(station.values())):
        others = [m for m in n.meters if station[m] != first]
        rank = n.rho(others)
        text += line("station", case.nodes[first][0], len(n.meters) - len(others), rank, n.needed, verdict_word(rank, n.needed))
        is_good = is_good and rank == n.needed
    return text + "end\n", 0 if is_good and n.all_observable() else 1


STUDIES = {"outages": outages, "pairs": pairs, "stations": stations}
