"""The case that files are, or the line of their first fault, by the rules of docs/FORMATS.md."""
from model import Case
from model_text import content_lines, is_name, line

# The rows of a table and the bytes of a file at most: those of obs, and those of obs_large.
LIMITS = {"usual": (20000, 16777216), "large": (1000000, 1073741824)}
MOST_ROWS = LIMITS["usual"][0]
COLUMNS = {
    "nodes": ["node", "source"],
    "switches": ["switch", "from", "to", "closed"],
    "branches": ["branch", "from", "to", "inservice"],
    "meters": ["meter", "kind", "at", "inservice"],
    "candidates": ["candidate", "kind", "at", "price"],
}
FURTHER = {"nodes": ["absolute"]}
KINDS = [b"flow", b"injection", b"zero", b"angle"]
OF_TABLES = """NoHeader ColumnMissing ColumnTwice ShortRow BadName BadFlag BadKind BadPrice NameTwice UnknownNode UnknownPlace
TooMany""".split()
OF_CDF = """NoBusSection BusSectionOpen NoBranchSection BranchSectionOpen BadBusNumber BadType BusTwice UnknownBus TooMany""".split()
OF_MATPOWER = """NoBusTable BusTableOpen NoBranchTable BranchTableOpen BadBusNumber BadType BusTwice UnknownBus TooMany ShortRow
BadStatus""".split()


class Fault(Exception):
    def __init__(self, part, place, name, names):
        super().__init__(line("fault", part, place, names.index(name) + 1, name))


def are_digits(word, most):
    return 1 <= len(word) <= most and all(48 <= byte <= 57 for byte in word)


def whole(word):
    return int(word) if are_digits(word, 19) else None


def text_of(name):
    return name.decode("utf-8", "surrogateescape")


def fault_of_row(part, fields, seen, names):
    """The fault of a row with the fields of the needed columns, in the order of COLUMNS, and then of a further one, or None."""
    places = names["branches"] if fields[1] == b"flow" else names["nodes"]
    flags = fields[1:] if part == "nodes" else [] if part == "candidates" else fields[-1:]
    of_items = part in ("meters", "candidates")
    tests = [
        ("BadName", not is_name(fields[0])),
        ("BadFlag", any(flag not in (b"0", b"1") for flag in flags)),
        ("BadKind", of_items and fields[1] not in KINDS),
        ("BadPrice", part == "candidates" and not (whole(fields[3]) or 0) <= 10**9),
        ("BadPrice", part == "candidates" and whole(fields[3]) is None),
        ("NameTwice", fields[0] in seen),
        ("UnknownNode", part in ("switches", "branches") and not {fields[1], fields[2]} <= names["nodes"].keys()),
        ("UnknownPlace", of_items and fields[2] not in places),
    ]
    return next((name for name, fails in tests if fails), None)


def read_table(part, records, names, most=MOST_ROWS):
    """The rows that records are, `most` at most. The positions of names of nodes and branches are in `names`."""
    if not records:
        raise Fault(part, 0, "NoHeader", OF_TABLES)
    columns = [word.encode() for word in COLUMNS[part]]
    if not all(column in records[0] for column in columns):
        raise Fault(part, 0, "ColumnMissing", OF_TABLES)
    columns += [column for column in map(str.encode, FURTHER.get(part, [])) if column in records[0]]
    if any(records[0].count(column) > 1 for column in columns):
        raise Fault(part, 0, "ColumnTwice", OF_TABLES)
    places, seen, rows = [records[0].index(column) for column in columns], {}, []
    for number, record in enumerate(records[1:], 1):
        if number > most:
            raise Fault(part, number, "TooMany", OF_TABLES)
        if max(places) >= len(record):
            raise Fault(part, number, "ShortRow", OF_TABLES)
        fields = [record[place] for place in places]
        fault = fault_of_row(part, fields, seen, names)
        if fault:
            raise Fault(part, number, fault, OF_TABLES)
        seen[fields[0]] = len(rows)
        name, last = text_of(fields[0]), fields[-1] == b"1"
        if part == "nodes":
            rows.append((name, fields[1] == b"1", fields[2:] == [b"1"]))
        elif part in ("switches", "branches"):
            rows.append([name, names["nodes"][fields[1]], names["nodes"][fields[2]], last])
        else:
            at = names["branches" if fields[1] == b"flow" else "nodes"][fields[2]]
            rows.append([name, fields[1].decode(), at, last if part == "meters" else whole(fields[3])])
    names[part] = seen
    return rows


def read_tables(records, most=MOST_ROWS):
    """The case that five tables are, of which the last may be absent (None)."""
    names, rows = {"nodes": {}, "branches": {}}, []
    for part, table in zip(COLUMNS, records):
        rows.append([] if table is None else read_table(part, table, names, most))
    return Case(*rows)


def with_items(nodes, branches, meters, candidates, most=MOST_ROWS):
    """The case of these nodes and branches with tables of meters and candidates."""
    names = {"nodes": {row[0].encode(): i for i, row in enumerate(nodes)}}
    names["branches"] = {row[0].encode(): i for i, row in enumerate(branches)}
    items = [read_table(part, some, names, most) for part, some in (("meters", meters), ("candidates", candidates))]
    return Case(nodes, [], branches, *items)


def section(lines, start, begins, missing, still_open):
    """The numbers and contents of the lines of a section that aren't blank, one by one, and then the place behind it."""
    at = next((k for k in range(start, len(lines)) if lines[k].startswith(begins)), None)
    if at is None:
        raise Fault("cdf", 0, missing, OF_CDF)
    for k in range(at + 1, len(lines)):
        if lines[k].startswith(b"-999"):
            yield None, k + 1
            return
        if lines[k].strip(b" "):
            yield k + 1, lines[k]
    raise Fault("cdf", 0, still_open, OF_CDF)


def read_cdf(content, most=MOST_ROWS):
    lines, nodes, buses, branches, behind = content_lines(content), [], {}, [], 0
    for number, text in section(lines, 0, b"BUS DATA", "NoBusSection", "BusSectionOpen"):
        if number is None:
            behind = text
            break
        bus, kind = text[0:4].strip(b" "), text[24:26].strip(b" ")
        if not are_digits(bus, 4):
            raise Fault("cdf", number, "BadBusNumber", OF_CDF)
        if kind not in (b"0", b"1", b"2", b"3"):
            raise Fault("cdf", number, "BadType", OF_CDF)
        if int(bus) in buses:
            raise Fault("cdf", number, "BusTwice", OF_CDF)
        buses[int(bus)] = len(nodes)
        nodes.append((str(int(bus)), kind in (b"2", b"3"), False))
    for number, text in section(lines, behind, b"BRANCH DATA", "NoBranchSection", "BranchSectionOpen"):
        if number is None:
            break
        ends = [text[0:4].strip(b" "), text[5:9].strip(b" ")]
        if len(branches) == most:
            raise Fault("cdf", number, "TooMany", OF_CDF)
        if not all(are_digits(end, 4) for end in ends):
            raise Fault("cdf", number, "BadBusNumber", OF_CDF)
        if not all(int(end) in buses for end in ends):
            raise Fault("cdf", number, "UnknownBus", OF_CDF)
        branches.append([f"L{len(branches) + 1}", buses[int(ends[0])], buses[int(ends[1])], True])
    return nodes, branches


def matpower_rows(lines, name, missing):
    """The rows of a table as (line, values), and whether a bracket ends it."""
    for k, text in enumerate(lines):
        words = text.lstrip(b" \t")
        if words.startswith(name) and words[len(name) :].lstrip(b" \t")[:1] == b"=":
            words = words[len(name) :].lstrip(b" \t")[1:].lstrip(b" \t")
            if words[:1] == b"[":
                break
    else:
        raise Fault("matpower", 0, missing, OF_MATPOWER)
    rows, words = [], words[1:]
    while True:
        for row in words.split(b"]")[0].split(b";"):
            values = row.replace(b"\t", b" ").replace(b",", b" ").split(b" ")
            if any(values):
                rows.append((k + 1, [value for value in values if value]))
        k += 1
        if b"]" in words or k == len(lines):
            return rows, b"]" in words
        words = lines[k]


def whole_value(word):
    digits, _, zeros = word.partition(b".")
    return int(digits) if are_digits(digits, 9) and not zeros.strip(b"0") else None


def fault_of_matpower_row(rows, most, values, tests):
    if len(rows) == most:
        return "TooMany"
    return next((name for name, fails in tests if fails()), None) if values else "ShortRow"


def read_matpower(content, most=MOST_ROWS):
    lines, nodes, buses, isolated, branches = [text.split(b"%")[0] for text in content_lines(content)], [], {}, set(), []
    rows, is_ended = matpower_rows(lines, b"mpc.bus", "NoBusTable")
    for number, values in rows:
        words = [whole_value(word) for word in values[:2]]
        tests = [
            ("BadBusNumber", lambda w=words: w[0] is None),
            ("BadType", lambda w=words: w[1] not in (1, 2, 3, 4)),
            ("BusTwice", lambda w=words: w[0] in buses),
        ]
        fault = fault_of_matpower_row(nodes, most, values[1:], tests)
        if fault:
            raise Fault("matpower", number, fault, OF_MATPOWER)
        buses[words[0]] = len(nodes)
        isolated |= {len(nodes)} if words[1] == 4 else set()
        nodes.append((str(words[0]), words[1] in (2, 3), False))
    if not is_ended:
        raise Fault("matpower", 0, "BusTableOpen", OF_MATPOWER)
    rows, is_ended = matpower_rows(lines, b"mpc.branch", "NoBranchTable")
    for number, values in rows:
        words = [whole_value(word) for word in values[:2] + values[10:11]]
        tests = [
            ("BadBusNumber", lambda w=words: None in w[:2]),
            ("UnknownBus", lambda w=words: not set(w[:2]) <= buses.keys()),
            ("BadStatus", lambda w=words: w[2] not in (0, 1)),
        ]
        fault = fault_of_matpower_row(branches, most, values[10:], tests)
        if fault:
            raise Fault("matpower", number, fault, OF_MATPOWER)
        ends = [buses[word] for word in words[:2]]
        branches.append([f"L{len(branches) + 1}", *ends, words[2] == 1 and not isolated & set(ends)])
    if not is_ended:
        raise Fault("matpower", 0, "BranchTableOpen", OF_MATPOWER)
    return nodes, branches
