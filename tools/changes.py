"""What is otherwise in one answer than in another on the same nodes, in sentences. Buses may be others, so nodes are compared."""
from wording import Words, counted, quoted, shown

MOST = 20


def changes(before, after):
    """The sentences, without the numbers that both have alike."""
    words = Words(after, MOST)
    return buses(before, after) + fed(before, after, words) + islands(before, after) + ties(before, after, words) + critical(before, after)


def names(answer, nodes):
    """The buses of these nodes, by name, each once and in order."""
    return Words(answer, MOST).buses(dict.fromkeys(answer.bus[node] for node in sorted(nodes)))


def pieces(group_of, other_of):
    """For each group of one answer the groups of the other that its nodes are in, where these are several."""
    found = {}
    for node, group in enumerate(group_of):
        if group is not None and other_of[node] is not None:
            found.setdefault(group, {}).setdefault(other_of[node], []).append(node)
    return [list(some.values()) for some in found.values() if len(some) > 1]


def listed(answer, some):
    parts = [names(answer, nodes) for nodes in some[:MOST]]
    return " | ".join(parts) + (f" | and {len(some) - MOST:,} more" if len(some) > MOST else "")


def buses(before, after):
    """Buses that a switch cut or joined, where either end was met by something."""
    name = lambda answer, nodes: quoted(answer.names[answer.bus[nodes[0]]])
    cut = [f"Bus {name(before, some[0])} is {len(some):,} buses now: {listed(after, some)}." for some in pieces(before.bus, after.bus)]
    return cut + [f"One bus now: {listed(before, some)}." for some in pieces(after.bus, before.bus)]


def fed(before, after, words):
    is_fed = lambda answer, node: answer.island[answer.bus[node]] is not None
    nodes = range(len(after.bus))
    dead = [node for node in nodes if is_fed(before, node) and not is_fed(after, node)]
    back = [node for node in nodes if is_fed(after, node) and not is_fed(before, node)]
    buses_of = lambda some: dict.fromkeys(after.bus[node] for node in some)
    found = [f"{counted(len(buses_of(dead)), 'bus', 'buses')} went dead: {words.buses(buses_of(dead))}."] if dead else []
    return found + ([f"{counted(len(buses_of(back)), 'bus is', 'buses are')} fed again: {words.buses(buses_of(back))}."] if back else [])


def island_of(answer):
    return [answer.island[u] for u in answer.bus]


def islands(before, after):
    """Islands that fell apart, and such that are one now."""
    was, now = island_of(before), island_of(after)
    name = lambda some: quoted(before.names[was[some[0][0]]])
    apart = [f"Island {name(some)} fell apart: {listed(after, some)}." for some in pieces(was, now)]
    return apart + [f"One island now: {listed(before, some)}." for some in pieces(now, was)]


def untied_nodes(answer):
    buses_of = {u for part in answer.absolute for u in answer.untied(part)}
    return {node for node, u in enumerate(answer.bus) if u in buses_of}


def tied_nodes(answer):
    buses_of = {u for part in answer.absolute for u in answer.parts[part]}
    return {node for node, u in enumerate(answer.bus) if u in buses_of} - untied_nodes(answer)


def ties(before, after, words):
    """What is tied to the time reference and wasn't, and the other way round."""
    lost, gained = tied_nodes(before) & untied_nodes(after), untied_nodes(before) & tied_nodes(after)
    found = [f"Not tied to the time reference any more: {names(after, lost)}."] if lost else []
    return found + ([f"Tied to the time reference now: {names(after, gained)}."] if gained else [])


def critical(before, after):
    words = Words(after, MOST)
    was, now = set(before.critical), set(after.critical)
    more = [name for name in after.critical if name not in was]
    fewer = [name for name in before.critical if name not in now]
    found = [f"Critical now: {words.list(map(quoted, more))}."] if more else []
    return found + ([f"Critical no more: {words.list(map(quoted, fewer))}."] if fewer else [])


def standing(answer):
    """The verdict in a line."""
    counts = answer.counts
    if not counts["energised"]:
        return "Now: no part has a source, so nothing is needed."
    missing = counts["needed"] - counts["rank"]
    dead = counts["buses"] - counts["energised"]
    verdict = f"short, {counted(missing, 'pair is', 'pairs are')} missing" if missing else "observable"
    energised = f"; {counted(dead, 'bus is', 'buses are')} dead" if dead else ""
    return f"Now: {verdict}, {counts['rank']:,} of {counted(counts['needed'], 'needed pair')}{energised}."


def rows_changed(before, after):
    """The rows whose flag is another one, in the words of edits."""
    kinds = [("switches", "is closed", "is open"), ("branches", "is in service", "is out of service"),
             ("meters", "is in service", "is out of service")]
    return [f"{shown(now[0])} {yes if now[3] else no}" for part, yes, no in kinds
            for was, now in zip(getattr(before.case, part), getattr(after.case, part)) if was[3] != now[3]]
