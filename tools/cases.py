"""Random small cases and the files that they are: tables, files in the IEEE format and of MATPOWER, session lines, certificates.

Names are of many kinds, some parts are dead, some switches open, some branches loops, some rows out of service. What is spoilt has a row,
a field, a line or a byte less, twice, more or another.
"""
import re

import model_reads
from model import Case
from model_text import ASKS, EDITS, line

NAMES = ["a", "b", "Bus 1", "x y", "9", "Z", "node,7", 'q"', "é", "k" * 64, "mm", "#h"]
PRICES = [0, 1, 2, 2, 3, 5, 10**9]
FILES = ["nodes", "switches", "branches", "meters", "candidates"]
SPOILT_FIELDS = [b"", b"0", b"1", b"2", b"00", b" 1", b"flow", b"zero", b"Zero", b"angle", b"Angle", b"1000000000", b"1000000001", b"9" * 20,
                 b"0" * 18 + b"1", b"-1", b"x" * 64, b"x" * 65, b"a\tb", b"a\x7fb", b"\xff", b"node", b"from", b"kind", b"price", b"absolute"]
SPOILT_LINES = [b"", b"# note", b"trip", b"status ", b"report x", b"lose  m0", b"\xff", b"#" * 400, b"close s0\r"]
SPOILT_WORDS = ["nope", "", "0", "1", "18446744073709551615", "9999999999999999999", "00", "tree", "end", "angle"]


def bytes_of(text):
    return text.encode("utf-8", "surrogateescape")


def random_case(r):
    """Of some cases no node is marked absolute, of some a third and of some all; and of some no meter is an angle meter."""
    count, fed = r.randint(1, 7), r.choice([0.4, 0.8])
    marked, angles, in_service = r.choice([0, 0.3, 1]), r.choice([0, 0.2, 0.5]), r.choice([0.85, 0.85, 0.5])
    nodes = [(name, r.random() < fed, r.random() < marked) for name in r.sample(NAMES, count)]
    end = lambda: r.randrange(count)
    switches = [[f"s{i}", end(), end(), r.random() < 0.4] for i in range(r.choice([0, 0, 1, 2, 3, 4]))]
    branches = [[f"L{i}", end(), end(), r.random() < in_service] for i in range(r.randint(0, 8))]

    def item(name, last):
        kind = "angle" if r.random() < angles else r.choice(["flow", "flow", "injection", "zero"] if branches else ["injection", "zero"])
        return [name, kind, r.randrange(len(branches)) if kind == "flow" else end(), last]

    meters = [item(f"m{i}", r.random() < 0.85) for i in range(r.randint(0, 7))]
    return Case(nodes, switches, branches, meters, [item(f"c{i}", r.choice(PRICES)) for i in range(r.randint(0, 5))])


def records_of(case):
    """The five tables. Nodes have the column `absolute`, as the last one, where a node is marked."""
    node, branch = (lambda i: bytes_of(case.nodes[i][0])), (lambda i: bytes_of(case.branches[i][0]))
    flag = lambda value: b"1" if value else b"0"
    at = lambda row: branch(row[2]) if row[1] == "flow" else node(row[2])
    marked = 3 if any(row[2] for row in case.nodes) else 2
    columns = {part: [word.encode() for word in some] for part, some in model_reads.COLUMNS.items()}
    columns["nodes"] = [*columns["nodes"], b"absolute"][:marked]
    rows = [
        [[bytes_of(row[0]), flag(row[1]), flag(row[2])][:marked] for row in case.nodes],
        [[bytes_of(row[0]), node(row[1]), node(row[2]), flag(row[3])] for row in case.switches],
        [[bytes_of(row[0]), node(row[1]), node(row[2]), flag(row[3])] for row in case.branches],
        [[bytes_of(row[0]), row[1].encode(), at(row), flag(row[3])] for row in case.meters],
        [[bytes_of(row[0]), row[1].encode(), at(row), str(row[3]).encode()] for row in case.candidates],
    ]
    return [[columns[part], *some] for part, some in zip(FILES, rows)]


def with_marks(r, case, records):
    """The table of nodes with the column `absolute` at any place, where a node is marked or else by chance."""
    records = [record[:2] for record in records]
    if not any(row[2] for row in case.nodes) and r.random() < 0.8:
        return [records[0], *(record + [b"1"] for record in records[1:])] if r.random() < 0.1 else records
    at, column = r.randrange(3), [b"absolute", *(b"1" if row[2] else b"0" for row in case.nodes)]
    records = [record[:at] + [field] + record[at:] for record, field in zip(records, column)]
    return spoil_marks(r, at, records) if r.random() < 0.1 else records


def spoil_marks(r, at, records):
    """That column twice, or by another name, or a row whose field there is missing or no flag."""
    row, what = r.choice(records[1:]), r.randrange(5)
    if what == 0:
        records[0].append(b"absolute")
    elif what == 1:
        return [record + [record[at]] for record in records]
    elif what == 2:
        records[0][at] = r.choice([b" absolute", b"Absolute"])
    elif what == 3:
        del row[max(at, 1) :]
    else:
        row[at] = r.choice([b"", b"2", b" 1", b"yes"])
    return records


def csv_of(r, records):
    quoted = lambda field: re.search(rb'[,"\r\n]', field) or r.random() < 0.1
    field = lambda x: b'"' + x.replace(b'"', b'""') + b'"' if quoted(x) else x
    end = r.choice([b"\n", b"\n", b"\r\n"])
    lines = [b'""' if record == [b""] else b",".join(map(field, record)) for record in records]
    mark = b"\xef\xbb\xbf" if lines and r.random() < 0.1 else b""
    return mark + end.join(lines) + (end if len(lines) < 2 or r.random() < 0.8 else b"")


def spoil_records(r, records):
    """A row less or twice, a field less or more or another, or no row at all. Records without a field are no records."""
    records = [list(record) for record in records]
    at, what = r.randrange(len(records)), r.randrange(12)
    if what == 0 and len(records) > 1:
        del records[at]
    elif what == 1:
        records.insert(at, list(records[at]))
    elif what == 2:
        del records[at][r.randrange(len(records[at]))]
    elif what == 3:
        records[at].insert(r.randrange(len(records[at]) + 1), r.choice(SPOILT_FIELDS))
    elif what == 4:
        return []
    else:
        records[at][r.randrange(len(records[at]))] = r.choice([*SPOILT_FIELDS, r.choice(records)[0]])
    return [record for record in records if record]


def spoil_lines(r, lines, bytes_):
    """A line less, twice, cut, moved by a byte, or with a byte less or another."""
    at, what = r.randrange(len(lines)), r.randrange(6)
    one = lines[at]
    k = r.randrange(len(one)) if one else 0
    other = one[:k] + bytes([r.choice(bytes_)]) + one[k + 1 :]
    changed = [[], [one, one], [other], [one[:k] + one[k + 1 :]], [r.choice(lines)], [b" " + one]]
    return lines[:at] if what == 4 and r.random() < 0.5 else lines[:at] + changed[what] + lines[at + 1 :]


def cdf_of(r, case):
    numbers = r.sample([0, 1, 2, 3, 12, 345, 9999, 7, 77, 777], len(case.nodes))
    lines = [b"title", b"BUS DATA FOLLOWS"]
    for number, row in zip(numbers, case.nodes):
        kind = r.choice([2, 3] if row[1] else [0, 1])
        lines.append(r.choice([b"%4d", b"%-4d", b"%04d"]) % number + b" %-19s" % b"name" + r.choice([b"%2d", b"%-2d  1.0"]) % kind)
        lines += [b"   "] if r.random() < 0.05 else []
    lines += [b"-999", b"BRANCH DATA FOLLOWS"]
    for row in case.branches:
        lines.append(b"%4d " % numbers[row[1]] + r.choice([b"%4d", b"%-4d  1  1 1 0"]) % numbers[row[2]])
    return lines + [b"-999"] + r.choice([[], [b"END OF DATA"]]), b"0159 -xB\t"


def matpower_of(r, case):
    numbers = r.sample([0, 1, 2, 3, 12, 345, 99999, 7, 77, 999999999], len(case.nodes))
    value = lambda number: str(number).encode() + r.choice([b"", b"", b".", b".0", b".00"])
    gap = r.choice([b" ", b"\t", b",", b", "])
    more = lambda count: [r.choice([b"0", b"1.5", b"-3", b"Inf"]) for _ in range(count)]
    kind = lambda row: value(r.choice([2, 3] if row[1] else [1, 1, 1, 4]))
    buses = [[value(number), kind(row), *more(r.choice([0, 11]))] for number, row in zip(numbers, case.nodes)]
    ends = lambda row: [value(numbers[end]) for end in row[1:3]]
    branches = [[*ends(row), *more(8), value(int(row[3])), *more(2)] for row in case.branches]

    def table(name, rows):
        lines = [r.choice([b"", b" ", b"\t"]) + b"mpc." + name + r.choice([b" = [", b"=[", b"\t=\t["])]
        for row in map(gap.join, rows):
            if len(lines) > 1 and b"%" not in lines[-1] and r.random() < 0.2:
                lines[-1] += b"; " + row
            else:
                lines.append(b" " + row + r.choice([b";", b"", b" ;", b"; % note", b" % ] note"]))
        return lines + [r.choice([b"];", b"]", b" ];"])]

    tables = [table(b"bus", buses), table(b"branch", branches)]
    r.shuffle(tables)
    lines = [b"function mpc = x", b"mpc.bus_name = {", b"'a';", b"};", *tables[0], *tables[1], b"mpc.gen = [", b"1 2", b"];"]
    return lines, b"0159 -x;]%[.,"


def items_of(r, nodes, branches):
    """Tables of meters and candidates on these."""

    def item(name, last):
        kind = r.choice(["flow", "injection", "zero", "angle"] if branches else ["injection", "zero", "angle"])
        return [name, kind, r.randrange(len(branches if kind == "flow" else nodes)), last]

    meters = [item(f"m{k}", r.random() < 0.8) for k in range(5) if nodes]
    return records_of(Case(nodes, [], branches, meters, [item(f"c{k}", r.choice(PRICES)) for k in range(3) if nodes]))[3:]


def session_lines(r, case):
    tables = {word: [row[0] for row in getattr(case, table)] for word, (table, _, _) in EDITS.items()}
    lines = []
    for _ in range(r.randint(1, 10)):
        word, kind = r.choice(list(EDITS)), r.random()
        name = r.choice(tables[word] if tables[word] and r.random() < 0.95 else ["zz", "", "a b", "x" * 65, "x" * 300])
        edit, ask = bytes_of(f"{word} {name}"), r.choice(ASKS).encode()
        lines.append(edit if kind < 0.6 else ask if kind < 0.9 else r.choice(SPOILT_LINES))
    return b"\n".join(lines) + (b"\n" if r.random() < 0.8 else b"")


def all_bounds(text):
    """A bound for each energised component, observable or not, whose list are all its live meters."""
    n = text.network
    owned = [(c, n.meters_of(c)) for c in n.energised]
    return "".join(line("bound", text.bus(c), *n.bound(own, own)) + text.inside(own) for c, own in owned) + "end\n"


def spoilt_claims(r, case, text):
    """A certificate of which up to three lines are left out, repeated, exchanged, or have another word."""
    lines = [one.split("\t") for one in text.split("\n")[:-1]]
    tables = [[row[0] for row in rows] for rows in (case.nodes, case.branches, case.meters, case.candidates)]
    for _ in range(r.choice([0, 1, 1, 1, 2, 3])):
        at, what = r.randrange(len(lines)), r.randrange(7)
        words = list(lines[at])
        k = r.randrange(len(words))
        alike = next((some for some in [*tables, ["meter", "candidate"]] if words[k] in some), None)
        if what == 0 and len(lines) > 1:
            del lines[at]
        elif what == 1:
            lines.insert(r.randrange(len(lines) + 1), words)
        elif what == 2:
            lines.insert(r.randrange(len(lines)), lines.pop(at))
        elif k and words[k].isdigit() and r.random() < 0.7:
            lines[at] = words[:k] + [str(max(0, int(words[k]) + r.choice([-1, 1, 1, 2])))] + words[k + 1 :]
        else:
            other = r.choice(alike if alike and r.random() < 0.8 else sum(tables, SPOILT_WORDS))
            lines[at] = words[:k] + [other] + words[k + 1 :]
    return "\n".join("\t".join(words) for words in lines) + ("\n" if r.random() < 0.95 else "")
