"""The answer of obs in sentences: sections, each with a title and entries. An entry is a sentence with a list of what it speaks of."""
from answer import fault_text, records_of
from beware import all_warnings, file_warnings, lines_of
from losing import loss_sections
from model_reads import text_of
from wording import counted, quoted, shown


def sections_of(answer, words):
    """At most as many parts that fall short have a section of their own as a list has names."""
    first, others = answer.short_parts[: words.most], answer.short_parts[words.most :]
    found = [("Beware", all_warnings(answer, words)), ("Verdict", verdict(answer, words)), ("Time reference", references(answer, words))]
    found += [short_part(answer, words, part) for part in first]
    more = [f"{words.bus(part)}, {counted(len(answer.parts[part]), 'bus', 'buses')}: {answer.missing(part):,} missing" for part in others]
    found += [("Further parts that fall short", [(f"There are {len(more):,}:", more)])] if more else []
    found += [("Critical meters", critical(answer, words)), *loss_sections(answer, words), *placement(answer, words)]
    return with_lists(found)


def fault_sections(failure):
    """The fault of a file with the row or the line where it is, and what else of the files may have to do with it."""
    fault = fault_text(failure.printed), faulty_row(failure)
    return with_lists([("No answer", [fault]), ("Beware", file_warnings(failure.form, failure.contents))])


def faulty_row(failure):
    """The row or the line of a fault, or nothing where it has none."""
    _, part, place, *_ = failure.printed.split("\t")
    if part in failure.contents:
        rows = [", ".join(quoted(text_of(field)) for field in record) for record in records_of(failure.contents[part])]
    else:
        rows = [""] + [shown(" ".join(text_of(line).split())) for line in lines_of(failure.contents["case"])]
    return [row for row in rows[int(place) :][:1] if row]


def with_lists(sections):
    """The sections that have entries, each entry with a list."""
    return [(title, [one if isinstance(one, tuple) else (one, []) for one in entries]) for title, entries in sections if entries]


def plain_text(sections, most):
    """The sections as lines of text. No list has more than `most` items."""
    lines = []
    for title, entries in sections:
        lines += ([""] if lines else []) + [title]
        for sentence, items in entries:
            lines.append(f"  {sentence}")
            lines += [f"    - {item}" for item in items[:most]]
            lines += [f"    - and {len(items) - most:,} more (--all lists them)"] if len(items) > most else []
    return "".join(line + "\n" for line in lines)


def verdict(answer, words):
    counts = answer.counts
    needed, rank = counts["needed"], counts["rank"]
    buses, branches = counted(counts["energised"], "bus", "buses"), counted(counts["branches"], "branch", "branches")
    parts, meters = counted(len(answer.parts), "part has a source", "parts have a source"), counted(counts["meters"], "live meter")
    size = f"{parts}: {buses}, {branches} in service, {meters}."
    need = needs(needed - len(answer.absolute), len(answer.absolute))
    if answer.verdict == "observable":
        if not needed:
            return ["obs says observable, since nothing is needed."] + ([size] if answer.parts else [])
        return [f"obs says observable: the meters suffice. {need}, and can have it.", size]
    missing = counted(needed - rank, "such pair is", "such pairs are")
    entries = [f"obs says short: the meters don't suffice. {need}, and {rank:,} can have one: {missing} missing.", size]
    good = len(answer.trees)
    enough = counted(good, "part has enough meters", "parts have enough meters")
    return entries + ([f"{enough}: {words.list(map(quoted, answer.trees))}."] if good else [])


def needs(branches, ties):
    """What needs a meter, branches of trees and ties to time references apart."""
    some = [counted(branches, "branch of a tree", "branches of a tree")] if branches or not ties else []
    some += [counted(ties, "tie to the time reference", "ties to the time reference")] if ties else []
    return " and ".join(some) + (" needs a meter of its own" if branches + ties == 1 else " need a meter of their own")


def references(answer, words):
    """What is tied to the time reference of each absolute part, and what isn't."""
    if not answer.absolute:
        return []
    parts = [part for part in answer.parts if part in answer.absolute]
    one = "part is" if len(parts) == 1 else "parts are"
    sentence = f"{len(parts):,} {one} absolute: to be estimated against the time reference. Each needs one tie to it, by an angle meter:"
    return [(sentence, [reference(answer, words, part) for part in parts])]


def reference(answer, words, part):
    name = f"the part of {words.bus(part)}, {counted(len(answer.parts[part]), 'bus', 'buses')}"
    meters, untied = answer.angle_meters.get(part, []), answer.untied(part)
    if not meters:
        return f"{name}: not tied, since it has no live angle meter"
    by = words.list(quoted(answer.case.meters[m][0]) for m in meters)
    return f"{name}: tied by {by}" + (f", but for {counted(len(untied), 'bus', 'buses')}: {words.buses(untied)}" if untied else "")


def short_part(answer, words, part):
    """What a short component lacks, and where a meter would help."""
    buses = answer.parts[part]
    islands = sorted(answer.islands_of[part], key=lambda i: -len(answer.islands[i]))
    alone = [island for island in islands if len(answer.islands[island]) == 1]
    several = [f"island {words.bus(i)}, {counted(len(answer.islands[i]), 'bus', 'buses')}: {words.buses(answer.islands[i])}"
               for i in islands if len(answer.islands[i]) > 1]
    entries = []
    if len(islands) > 1:
        inside = "What lies inside of one can be estimated, what lies between two can't."
        entries = [(f"It falls into {len(islands):,} islands. {inside}", several)]
        entries += [f"{counted(len(alone), 'bus stands', 'buses stand')} alone: {words.buses(alone)}."] if alone else []
        entries += tied(answer, words, part)
    entries += referred(answer, words, part) + out_of_service(answer, words, part)
    entries.append(why(answer, words, part))
    missing = counted(answer.missing(part), "pair is", "pairs are")
    return f"The part of {words.bus(part)}, {counted(len(buses), 'bus', 'buses')}: {missing} missing", entries


def why(answer, words, part):
    """What the bound of a short component says."""
    bound, need = answer.bounds[answer.names[part]], answer.need(part)
    needed = f"{need:,} {'is' if need == 1 else 'are'} needed"
    needed += f": {counted(need - 1, 'branch', 'branches')} and 1 tie" if part in answer.absolute else ""
    if not bound.inside:
        return f"Why: {counted(bound.outside, 'live meter is', 'live meters are')} there, and {needed}."
    rows = [answer.meter_at[name] for name in bound.inside]
    has_tie = any(answer.case.meters[m][1] == "angle" for m in rows)
    stand = counted(bound.rank, "branch or tie", "branches and ties") if has_tie else counted(bound.rank, "branch", "branches") + " of a tree"
    others = counted(bound.outside, "other live meter is", "other live meters are")
    most = counted(bound.rank + bound.outside, "pair", "pairs")
    return (f"Why: all of these together stand for {stand}, and {others} there. That makes {most} at the most, and {needed}.",
            [words.meter(m) for m in rows])


def free_ends(answer, part):
    """The buses at branches between islands that have no injection."""
    return {u for e in answer.ties_of.get(part, []) for u in answer.ends[e]} - answer.injected


def tied(answer, words, part):
    """The branches between islands."""
    ties, free = answer.ties_of.get(part, []), free_ends(answer, part)
    one = "it" if len(ties) == 1 else "any of them"
    sentence = f"{counted(len(ties), 'branch ties', 'branches tie')} two islands. A flow meter on {one} makes one pair more, and so does " \
               "an injection meter at a bus that is named as free. Then ask again, since the islands are others."
    return [(sentence, [tie(answer, words, e, free) for e in ties])]


def referred(answer, words, part):
    """What ties an absolute part to the time reference."""
    if part not in answer.absolute:
        return []
    island = answer.with_reference.get(part)
    if island is None:
        return ["It is absolute, and no live angle meter ties it to the time reference. An angle meter at any of its buses makes one pair "
                "more."]
    return [f"It is absolute, and what angle meters tie to the time reference is island {words.bus(island)}. An angle meter at a bus "
            "outside of that makes one pair more."]


def out_of_service(answer, words, part):
    """The meters out of service that would make a pair more."""
    ties, free = set(answer.ties_of.get(part, [])), free_ends(answer, part)
    untied = set(answer.untied(part)) if part in answer.absolute else set()
    places = {"flow": ties, "injection": free, "zero": set(), "angle": untied}
    out = [m for m, row in enumerate(answer.case.meters) if not row[3] and answer.place(row) in places[row[1]]]
    return [("Meters out of service that would do so:", [words.meter(m) for m in out])] if out else []


def tie(answer, words, e, free):
    u, v = answer.ends[e]
    end = lambda w: f"{words.bus(w)} (island {words.bus(answer.island[w])})"
    some = " and ".join(words.bus(w) for w in (u, v) if w in free)
    text = f"free for an injection: {some}" if some else "no end is free for an injection"
    return f"{words.branch_name(e)}, from {end(u)} to {end(v)}; {text}"


def critical(answer, words):
    rows = [answer.meter_at[name] for name in answer.critical]
    zeros = [m for m in rows if answer.case.meters[m][1] == "zero"]
    meters = [m for m in rows if answer.case.meters[m][1] != "zero"]
    loss = "the meters don't suffice any more" if answer.verdict == "observable" else "one pair more is missing"
    entries = []
    if meters:
        any_one = "this one" if len(meters) == 1 else f"any one of these {len(meters):,}"
        entries.append((f"If {any_one} fails, {loss}:", [words.meter(m) for m in meters]))
    elif answer.live_meters:
        entries.append("Any one meter may fail, and as many pairs are left.")
    if zeros:
        entries.append(("These rows of zero count as much. They can't fail, but have to be true:", [words.meter(m) for m in zeros]))
    return entries


def placement(answer, words):
    if answer.plan:
        return [("What to buy", plan(answer, words))]
    return [("What could be bought", shortfall(answer, words))] if answer.shortfall else []


def plan(answer, words):
    chosen = [answer.candidate_at[name] for name in answer.plan.chosen]
    if not chosen:
        return ["Nothing: the meters suffice."]
    these = "this one" if len(chosen) == 1 else f"these {len(chosen):,}"
    less = "With less to spend buy the cheapest of these first: each makes one pair more, and for that money no other candidates make more."
    return [
        (f"The meters suffice with {these}, for {answer.plan.cost:,}. No candidates that suffice cost less.",
         [words.candidate(c) for c in chosen]),
        *([less] if len(chosen) > 1 else []),
        "No spare is among them. To use one write its row into the table of meters, with inservice 1 in place of the price.",
    ]


def shortfall(answer, words):
    found = answer.shortfall
    missing = answer.counts["needed"] - found.rank - found.outside
    bought, lacking = counted(len(answer.case.candidates), "candidate"), counted(missing, "pair")
    entries = [f"Not enough: with all {bought} bought {lacking} would still be missing."]
    rest = answer.remaining
    if rest is None:
        return entries
    islands = lambda e: " and ".join(words.bus(rest.island[u]) for u in rest.ends[e])
    ties = counted(len(rest.ties), "branch would tie", "branches would tie")
    items = [f"{words.branch(e)}, islands {islands(e)}" for e in rest.ties]
    entries += [(f"Even then {ties} two islands. Offer a flow meter on such a one:", items)] if items else []
    parts = [part for part in rest.short_parts if part in rest.absolute]
    outside = lambda part: f"outside of island {words.bus(rest.with_reference[part])}" if part in rest.with_reference else "at any bus"
    items = [f"the part of {words.bus(part)}, {outside(part)}" for part in parts]
    sentence = "In an absolute part an angle meter would help too:" if rest.ties else "What is missing is an angle meter in an absolute part:"
    return entries + ([(sentence, items)] if items else [])
