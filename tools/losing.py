"""What the studies of losses printed of a case, in sentences: of each branch, of meters that fail together, and of each station."""
from answer import OWN_FAILURE, Failure, run
from severed import Cut, cuts_of
from wording import counted, quoted

STUDIES = ["outages", "pairs", "stations"]


def ask_losses(program, folder, words):
    """The lines of each study, without the last one."""
    return {study: run(program, [study, *words], folder, True)[0][:-1] for study in STUDIES}


def loss_sections(answer, words):
    """Nothing where the studies weren't asked for."""
    if answer.losses is None:
        return []
    found = {study: answer.losses[study] for study in STUDIES}
    return [
        ("If a branch trips", outages(answer, words, found["outages"])),
        ("If two meters fail", pairs(answer, words, found["pairs"])),
        ("If a station's meters are lost", stations(answer, found["stations"])),
    ]


def missing_of(line):
    """How many pairs are missing by a line that ends with a rank, a needed number and a verdict."""
    return int(line[-2]) - int(line[-3])


def missing_now(answer):
    return answer.counts["needed"] - answer.counts["rank"]


def worse_of(answer, lines):
    """The lines after which more is missing than now, the worst first."""
    return sorted((line for line in lines if missing_of(line) > missing_now(answer)), key=lambda line: -missing_of(line))


def loss_of(answer, line):
    missing = counted(missing_of(line), "pair") if missing_of(line) else "no pair"
    return f"{missing} missing" + (f", {missing_now(answer):,} now" if missing_now(answer) else "")


def outages(answer, words, lines):
    """Outages that leave buses dead come first, and count as harmless nowhere: what is dead needs nothing, and can't be short."""
    if not lines:
        return []
    branch_at = {answer.case.branches[e][0]: e for e in answer.live_branches}
    cuts = cuts_seen(answer, lines, branch_at)
    dead = [line for line in lines if cut_of(cuts, branch_at[line[1]]).dead]
    others = [line for line in lines if not cut_of(cuts, branch_at[line[1]]).dead]
    dead.sort(key=lambda line: (-cuts[branch_at[line[1]]].dead, -missing_of(line)))
    worse, entries = worse_of(answer, others), []
    item = lambda line, *more: f"{words.branch(branch_at[line[1]])}: {', '.join([*more, loss_of(answer, line)])}"
    if dead:
        # No more rows are written than a list has, and to name the dead buses of each would take long.
        items = [item(line, dead_buses(words, cuts[branch_at[line[1]]], k < words.most)) for k, line in enumerate(dead)]
        entries.append((f"If {one_of(dead, 'trips')}, buses go dead. What is dead needs nothing, so fewer pairs are needed then:", items))
    if worse:
        entries.append((f"If {one_of(worse, 'trips')}, {lost(answer)}:", [item(line) for line in worse]))
    rest = len(others) - len(worse)
    if rest:
        which = "any other branch trips" if dead or worse else "any one branch trips"
        entries.append(f"If {which}, {rest:,} of {counted(len(lines), 'live branch', 'live branches')}, no bus goes dead and {kept(answer)}.")
    split = [line for line in others if cut_of(cuts, branch_at[line[1]]).fewer]
    if split:
        items = [f"{words.branch(branch_at[line[1]])}: {counted(cuts[branch_at[line[1]]].fewer, 'pair')} fewer needed" for line in split]
        entries.append((f"If {one_of(split, 'trips')}, a part falls in two, each with a source. So fewer pairs are needed then:", items))
    return entries


def cut_of(cuts, e):
    return cuts.get(e, Cut(0, list, 0))


def dead_buses(words, cut, is_named):
    return f"{counted(cut.dead, 'bus', 'buses')} dead" + (f" ({words.buses(cut.buses())})" if is_named else "")


def cuts_seen(answer, lines, branch_at):
    """What the outages cut off, by the tables. The needed numbers are to be those that obs printed."""
    cuts, needed = cuts_of(answer), answer.counts["needed"]
    if any(int(line[3]) != needed - cut_of(cuts, branch_at[line[1]]).fewer for line in lines):
        raise Failure(OWN_FAILURE, "the files were read otherwise than obs read them\n")
    return cuts


def one_of(lines, does):
    return f"this one {does}" if len(lines) == 1 else f"any one of these {len(lines):,} {does}"


def lost(answer):
    return "the meters don't suffice any more" if answer.verdict == "observable" else "more is missing than now"


def kept(answer):
    """Where the case is short already nothing is said that would pass for an all-clear."""
    return "the meters suffice" if answer.verdict == "observable" else "no more is missing than now"


def pairs(answer, words, lines):
    """Each class in a line. Meters that are critical alone are in none, and two of different classes may fail together."""
    classes = {}
    for _, first, meter in lines:
        classes.setdefault(first, []).append(words.meter(answer.meter_at[meter]))
    if not answer.live_meters or len(answer.critical) == len(answer.live_meters):
        return []
    alone = " that isn't critical alone" if answer.critical else ""
    if not classes:
        return [f"If any two meters fail{', of which neither is critical alone' if answer.critical else ''}, {kept(answer)}."]
    listed = lambda meters: "; ".join(meters[: words.most]) + (f"; and {len(meters) - words.most:,} more" if len(meters) > words.most else "")
    names = [f"{counted(len(meters), 'meter')}: {listed(meters)}" for meters in classes.values()]
    two_of = "two of these" if len(classes) == 1 else f"two of one of these {len(classes):,} groups"
    return [(f"If any one meter{alone} fails, {kept(answer)}. But if {two_of} fail, {lost(answer)}:", names)]


def stations(answer, lines):
    if not lines:
        return []
    worse = worse_of(answer, lines)
    others = len(lines) - len(worse)
    station = lambda line: f"{quoted(line[1])}, {counted(int(line[2]), 'meter')}: {loss_of(answer, line)}"
    entries = []
    if worse:
        these = "this station" if len(worse) == 1 else f"any one of these {len(worse):,} stations"
        entries.append((f"If all meters of {these} are lost, {lost(answer)}:", list(map(station, worse))))
    if others:
        any_one = "any other station" if worse else "any one station"
        entries.append(f"If all meters of {any_one} are lost, {others:,} of {counted(len(lines), 'station')}, {kept(answer)}.")
    return entries
