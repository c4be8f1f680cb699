"""What to beware of in an answer: what the report leaves out, and what of the files may have been read otherwise than it was meant."""
import csv
import io
import re

from wording import counted, quoted, shown

def all_warnings(answer, words):
    """Each is a sentence, or one with a list of what it speaks of."""
    return unsourced(answer, words) + uncounted(answer, words) + twice_measured(answer, words) + file_warnings(answer.form, answer.contents)


def file_warnings(form, contents):
    """What the files alone tell, also where obs found a fault in them."""
    found = [one for part, content in contents.items() if part != "case" for one in long_records(part, content)]
    if form.kind == "cdf":
        found += cdf_warnings(contents["case"])
    return found + (matpower_warnings(contents["case"]) if form.kind == "matpower" else [])


def unsourced(answer, words):
    if not answer.counts["energised"]:
        some = ["No part of the network has a source. Nothing is needed then, so the verdict says nothing."]
        return some + ([] if answer.names else ["The network has no buses."])
    dead = answer.dead_parts
    if not dead:
        return []
    parts = counted(len(dead), "part of the network has no source and is", "parts of the network have no source and are")
    whose = "Its" if len(dead) == 1 else "Their"
    feeds = feeds_of(answer)
    nodes = [words.list(map(words.nodes, buses)) + feeding(words, feeds.get(part, [])) for part, buses in dead.items()]
    return [(f"{parts} left out of the verdict. {whose} nodes:", nodes)]


def feeds_of(answer):
    """For each part without a source the open switches and the branches out of service that lead to a part with one."""
    found = {}
    for word, rows in [("closing", answer.case.switches), ("restoring", answer.case.branches)]:
        for name, start, end, is_in in rows:
            ends = answer.bus[start], answer.bus[end]
            dead = [u for u in ends if answer.island[u] is None]
            if not is_in and len(dead) == 1:
                found.setdefault(answer.part[dead[0]], []).append(f"{word} {quoted(name)}")
    return found


def feeding(words, ways):
    if not ways:
        return ""
    return f"; {ways[0]} would feed it" if len(ways) == 1 else f"; each of these would feed it: {words.list(ways)}"


def uncounted(answer, words):
    """The rows in service that the report doesn't count, each with the cause."""
    case, found = answer.case, []
    rows = [e for e, row in enumerate(case.branches) if row[3]]
    idle = [e for e in rows if e not in answer.ends or not answer.is_live(e)]
    if idle:
        sentence = f"{counted(len(rows), 'branch is', 'branches are')} in service, and {counting(len(rows) - len(idle))}. These don't:"
        cause = lambda e: "both ends are at one bus" if e not in answer.ends else "in a part without a source"
        found.append((sentence, [f"{words.branch(e)} ({cause(e)})" for e in idle]))
    rows = [m for m, row in enumerate(case.meters) if row[3]]
    idle = sorted(set(rows) - set(answer.live_meters))
    if idle:
        sentence = f"{counted(len(rows), 'meter is', 'meters are')} in service, and {counting(len(rows) - len(idle))}. These don't:"
        found.append((sentence, [f"{words.meter(m)} ({idle_cause(answer, case.meters[m])})" for m in idle]))
    idle = sorted(set(range(len(case.candidates))) - set(answer.live_candidates))
    if idle:
        causes = [f"{words.candidate(c)} ({idle_cause(answer, case.candidates[c])})" for c in idle]
        found.append((f"{counted(len(idle), 'candidate')} would measure nothing:", causes))
    return found


def counting(number):
    return counted(number, "counts", "count")


def idle_cause(answer, row):
    if row[1] != "flow":
        nothing = "no node of its part is marked absolute" if row[1] == "angle" else "no branch in service is at this bus"
        return "in a part without a source" if answer.island[answer.place(row)] is None else nothing
    if not answer.case.branches[row[2]][3]:
        return "the branch is out of service"
    return "in a part without a source" if row[2] in answer.ends else "both ends of the branch are at one bus"


def twice_measured(answer, words):
    """Buses with two live rows of injection or zero, also where the plan would make a second one."""
    rows = [answer.case.meters[m] for m in answer.live_meters]
    bought = [answer.case.candidates[answer.candidate_at[name]] for name in (answer.plan.chosen if answer.plan else [])]
    text = "Of a bus an estimator has one equation, however many rows of injection or zero stand there; obs counts each row."
    found = []
    cases = [("These buses have more than one:", rows, rows), ("With what the plan buys these would:", rows + bought, bought)]
    for sentence, some, wanted in cases:
        at = {}
        for row in some:
            if row[1] in ("injection", "zero"):
                at.setdefault(answer.place(row), []).append(row)
        places = {answer.place(row) for row in wanted if row[1] in ("injection", "zero")}
        several = [u for u in at if u in places and len(at[u]) > 1]
        items = [f"{words.bus(u)}: " + words.list(f"{quoted(row[0])} ({row[1]})" for row in at[u]) for u in several]
        if items:
            found.append((f"{text} {sentence}", items))
    return found


def long_records(part, content):
    """Records that go over several lines, as behind a stray quotation mark."""
    reader = csv.reader(io.StringIO(content.decode("latin-1"), newline=""))
    before, found = 0, []
    for record in reader:
        if reader.line_num > before + 1:
            found.append((before + 1, reader.line_num))
        before = reader.line_num
    if not found:
        return []
    text = f"In the table of {part} a row goes over several lines. If that isn't meant, a quotation mark stands where it shouldn't:"
    return [(text, [f"lines {start} to {end}" for start, end in found])]


def lines_of(content):
    return [line.removesuffix(b"\r") for line in content.split(b"\n")]


def cdf_warnings(content):
    """Lines of the two sections whose columns may be shifted, or whose numbers are longer than what is read."""
    inside, shifted, longer = False, [], []
    for number, line in enumerate(lines_of(content), 1):
        if line.startswith((b"BUS DATA", b"BRANCH DATA")):
            inside = True
        elif line.startswith(b"-999"):
            inside = False
        elif inside:
            head = line[:26]
            if not head.isascii() and is_utf8(line):
                shifted.append(f"line {number}: {shown(line.decode())}")
            if head[:5].isdigit() and head[:5].isascii():
                longer.append(f"line {number}: {shown(head.decode('latin-1'))}")
    found = []
    if shifted:
        found.append(("A letter outside ASCII takes two bytes or more here, and the columns behind it are shifted: the type of the bus can "
                      "be read wrongly. Bring the file to one byte a letter first (iconv -f UTF-8 -t LATIN1):", shifted))
    if longer:
        found.append(("A bus number of five digits or more is read as its first four:", longer))
    return found


def is_utf8(line):
    try:
        line.decode("utf-8")
    except UnicodeDecodeError:
        return False
    return True


def table_start(line):
    found = re.match(r"[ \t]*mpc\.(bus|branch)[ \t]*=[ \t]*\[", line)
    return (found[1], found.end()) if found else (None, 0)


def split_matpower(lines):
    """The lines of the two tables that are read, by their numbers, and what stands outside of them. Of a line comments are cut off."""
    inside, outside, seen, current = {}, {}, set(), None
    for number, line in enumerate(lines, 1):
        text = line.split("%")[0]
        name, start = table_start(text)
        if current is None and name and name not in seen:
            current = name
            seen.add(name)
            text = text[start:]
        if current is None:
            outside[number] = text
            continue
        rows, bracket, behind = text.partition("]")
        inside[number] = rows
        if bracket:
            outside[number] = behind
            current = None
    return inside, outside


def block_comments(lines):
    """The numbers of the lines that stand in block comments."""
    depth, found = 0, set()
    for number, line in enumerate(lines, 1):
        depth += line.strip() in ("%{", "#{")
        if depth:
            found.add(number)
        depth -= line.strip() in ("%}", "#}") and depth > 0
    return found


def matpower_warnings(content):
    lines = [line.decode("latin-1") for line in lines_of(content)]
    inside, outside = split_matpower(lines)
    comments = block_comments(lines)
    line = lambda number: f"line {number}: {shown(' '.join(lines[number - 1].split()))}"
    second = [number for number, text in outside.items() if table_start(text)[0]]
    code = {number: text.split("#")[0] for number, text in outside.items() if number not in second}
    changes = re.compile(r".*\bmpc\.(bus|branch)\b|\s*(\[.*)?\bmpc\b[^=.]*=")
    hidden = [number for number, text in inside.items() if number in comments and text.strip()]
    kinds = [
        ("A block comment hides rows from MATPOWER, and obs reads them all the same:", hidden),
        ("For obs no # starts a comment, and what stands behind it is read as values:", [n for n, text in inside.items() if "#" in text]),
        ("Of a table that stands twice obs reads the first. These aren't read:", second),
        ("Statements aren't read. These may change the tables:", [n for n, text in code.items() if changes.match(text)]),
    ]
    return [(sentence, [line(number) for number in numbers]) for sentence, numbers in kinds if numbers]
