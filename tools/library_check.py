#!/usr/bin/env python3
"""Tries the library for C and the Python module: tools/library_check.py LIBRARY PROGRAM [SECONDS].

LIBRARY is libobs.so, PROGRAM the built program. It says what was tried, and ends with 1 at the first thing that is otherwise. With
SECONDS only the examples, malformed blocks and what tools/library_guards.py says are tried, for about that time:

- the examples (examples/*/*.run) whose commands are all plain ones of obs: what the module reads of an answer, written as text again, is
  what the program prints, and its status is the program's; a fault has the words of the printed line
- random cases whose tables are rows, with names of many kinds: the answer is that of the definitions (tools/model.py)
- a session whose text is longer than the module's first block, and one whose lines are too long
- one row and one byte more than the usual limits: a fault within these, and an answer within the largest
- blocks for the text of 0 to 40 bytes, and of about as many as the text: the status, the front, and that nothing behind it is touched
- ten threads at once, each with cases of its own; less and less memory, and each request for it refused in turn: every call ends with its
  answer, or with 6 and nothing written; and all memory is given back. The refusals need a C compiler and libobs.a beside the library
- blocks that are no words and contents: 8, and nothing written; random cases are compared by tools/compare.py LIBRARY
- sessions that stay between calls (tools/library_stays.py), and blocks that end where the memory ends (tools/library_guards.py)
"""
import ctypes
import os
import random
import shlex
import shutil
import subprocess
import sys
import tempfile
import threading

HERE = os.path.dirname(os.path.abspath(__file__))
EXAMPLES = os.path.join(HERE, "..", "examples")
sys.path[:0] = [os.path.join(HERE, "..", "python"), HERE]

import library_guards
import library_stays
import obs
from cases import random_case, records_of
import relations
from memory import COMMANDS
from model import Network
from model_studies import STUDIES
from model_text import Text
from obs import library

FILL, BEHIND = 0xA5, 64
TABLES = ["nodes", "switches", "branches", "meters"]


def fail(*words):
    print(*words)
    sys.exit(1)


def agree(what, found, wanted):
    if found != wanted:
        fail(f"{what}\n found {found!r}"[:3000], f"\nwanted {wanted!r}"[:3000])


def content(folder, name):
    with open(os.path.join(folder, name), "rb") as file:
        return file.read()


def form_of(folder, words):
    """The case of a form, and the words behind it."""
    count = {"tables": 4, "cdf": 2, "matpower": 2}[words[0]]
    make = {"tables": obs.tables, "cdf": obs.cdf, "matpower": obs.matpower}[words[0]]
    return make(*(os.path.join(folder, name) for name in words[1 : count + 1])), words[count + 1 :]


def answer_of(folder, words, given):
    """The text and the status of a command, by the call of its name."""
    path = lambda name: os.path.join(folder, name)
    if words[0] == "topology":
        return str(obs.topology(path(words[1]), path(words[2]))), 0
    if words[0] == "trial" or words[1:2] == ["nodes.csv"]:
        status, text = obs.run(words)
        return text.decode(), status
    case, rest = form_of(folder, words[1:])
    offered = path(rest[1]) if rest[:1] == ["with"] else None
    if words[0] == "report":
        answer = obs.report(case)
        return str(answer), 0 if answer.observable else 1
    if words[0] == "place":
        answer = obs.place(case, path(rest[0]))
        return str(answer), 0 if isinstance(answer, obs.Plan) else 1
    if words[0] == "session":
        answer = obs.session(case, given, offered)
        return str(answer), 0 if answer.observable else 1
    if words[0] in STUDIES:
        answer = getattr(obs, words[0])(case)
        return str(answer), 0 if answer.observable else 1
    answer = obs.verify(case, path(rest[-1]), offered)
    return str(answer), 0 if isinstance(answer, obs.Valid) else 1


def plain_command(line, folder):
    """The words of a plain command of obs and the bytes of its input, or None where it is another."""
    line = line[2:]
    words = shlex.split(line)
    if words[:1] != ["obs"] or any(mark in line for mark in "|;>$("):
        return None
    given = b""
    if words[-1].startswith("<"):
        given = content(folder, words.pop()[1:])
    return (words[1:], given) if all(os.path.isfile(os.path.join(folder, word)) for word in words if "." in word) else None


def examples():
    """Folder, words, input, status and text of each example that is one plain command."""
    for folder in sorted(os.listdir(EXAMPLES)):
        folder = os.path.join(EXAMPLES, folder)
        for name in sorted(os.listdir(folder)) if os.path.isdir(folder) else []:
            if not name.endswith(".run"):
                continue
            head, _, printed = content(folder, name).decode().partition("prints\n")
            lines = head.split("\n")
            commands = [plain_command(line, folder) for line in lines if line.startswith("$ ")]
            if len(commands) == 1 and commands[0]:
                status = next(int(line[7:]) for line in lines if line.startswith("status "))
                yield (folder, *commands[0], status, printed)


def try_examples(program):
    count = 0
    for folder, words, given, status, printed in examples():
        done = subprocess.run([program, *words], cwd=folder, input=given, stdout=subprocess.PIPE, stderr=subprocess.DEVNULL)
        agree(words, (done.stdout.decode(), done.returncode), (printed, status))
        try:
            found = answer_of(folder, words, given)
        except obs.Fault as fault:
            found = fault.text, 3
            agree(words, ["fault", fault.part, str(fault.row), str(fault.code), fault.name], fault.text.rstrip("\n").split("\t"))
        agree(words, found, (printed, status))
        count += 1
    if count < 15:
        fail("there are only", count, "plain examples")
    print(count, "examples are answered as by the program")


class Frame:
    """As much of a frame of pandas as the module asks for."""

    def __init__(self, columns, rows):
        self.columns, self.rows = columns, rows

    def to_dict(self, _):
        return [dict(zip(self.columns, row)) for row in self.rows]


def given_rows(r, part, records):
    """A table of these records: its bytes, or rows of one kind, with the flags and prices as numbers or as text."""
    columns, rows = [name.decode() for name in records[0]], [list(map(bytes, row)) for row in records[1:]]
    kind = r.randrange(6)
    if kind == 0:
        quoted = lambda field: b'"' + field.replace(b'"', b'""') + b'"'
        return b"".join(b",".join(map(quoted, row)) + b"\n" for row in records)
    if kind == 1:
        return rows
    rows = [[field.decode("utf-8", "surrogateescape") for field in row] for row in rows]
    value = r.choice([int, float, lambda word: bool(int(word)) if part != "candidates" else int(word)])
    rows = [(*row[:-1], value(row[-1])) for row in rows]
    dictionaries = [dict(zip(columns, row), note="x") for row in rows]
    return {2: rows, 3: tuple(rows), 4: dictionaries, 5: Frame(columns, rows)}[kind]


def try_rows():
    count = 0
    for seed in range(500):
        r = random.Random(seed)
        case = random_case(r)
        case.nodes[0] = (r.choice([case.nodes[0][0], "\udcff\udc80", " a ", "x\u2028y", '"', "a,b"]), *case.nodes[0][1:])
        if len({row[0] for row in case.nodes}) < len(case.nodes):
            continue
        *tables, offered = [given_rows(r, part, records) for part, records in zip(obs.COLUMNS, records_of(case))]
        made = obs.tables(*tables)
        agree(seed, str(obs.report(made)), Text(case).ask("report"))
        agree(seed, str(obs.place(made, offered)), Text(case).ask("place"))
        agree(seed, str(obs.topology(*tables[:2])), Text(case).topology())
        for study, answered_of in STUDIES.items():
            agree(seed, str(getattr(obs, study)(made)), answered_of(case, Network)[0])
        count += 1
    wrong = [([("a",)], ValueError), ([{"node": "a"}], ValueError), (["ab"], TypeError), ([("a", 0.5)], TypeError), (7, TypeError)]
    for rows, error in wrong:
        try:
            obs.topology(rows, None)
            fail("these rows are no table:", rows)
        except error:
            pass
    print(count, "cases are answered from rows as the definitions say")


def try_sessions():
    case = obs.cdf(*(os.path.join(EXAMPLES, "ieee14", name) for name in ("case.cdf", "meters.csv")))
    one, count = str(obs.report(case)), 2000
    agree("a long text", str(obs.session(case, ["report"] * count)), one * count)
    try:
        obs.session(case, b"status\n" + b"#" * (16 << 20))
        fail("a session that is too long is answered")
    except obs.SessionTooLong as found:
        agree("a long session", found.text, str(obs.session(case, "status")))
    print("a text of", count * len(one), "bytes is answered whole, and a session that is too long up to where it is")


def try_limits():
    """A table with a row too many for the usual limits, and a file and lines of a session with a byte too many."""
    rows, most = library.LIMITS["usual"]
    nodes = b"node,source\n" + b"".join(b"n%d,0\n" % k for k in range(rows + 1))
    header = b"node,source\n"
    long = header + b"\n" * (most + 1 - len(header))
    for given, fault in (nodes, (rows + 1, "TooMany")), (long, (0, "TooLong")):
        try:
            obs.topology(given, None)
            fail("a file beyond the usual limits is answered")
        except obs.Fault as found:
            agree("a file beyond the usual limits", (found.row, found.name), fault)
        agree("a file within the largest limits", len(obs.topology(given, None, limits="large").bus_of), rows + 1 if given is nodes else 0)
        with obs.LiveSession(obs.tables(given, None, b"branch,from,to,inservice\n", b"meter,kind,at,inservice\n", limits="large")) as session:
            agree("a session within the largest limits", session.observable, True)
    case = obs.tables(nodes, None, b"branch,from,to,inservice\n", b"meter,kind,at,inservice\n", limits="large")
    lines = b"status\n" + b"#" * (most - 6)
    agree("a session with a byte too many for the usual limits", str(obs.session(case, lines)), str(obs.session(case, "status")))
    print(rows + 1, "rows and", most + 1, "bytes are answered within the largest limits, and not within the usual ones")


def blocks_of(folder, words):
    """The blocks of a call whose words name files where they have a point."""
    contents = [content(folder, word) if "." in word else b"" for word in words]
    return b"".join(word.encode() + b"\0" for word in words), b"".join(contents), list(map(len, contents))


def block_of(room):
    """A block with so much room, and some bytes behind it."""
    return (ctypes.c_char * (room + BEHIND)).from_buffer_copy(bytes([FILL]) * (room + BEHIND))


def call_with(words, contents, lengths, given, room):
    """A call with so much room: the status, how many bytes are written, and the block with some bytes behind it."""
    text = block_of(room)
    return (*library.call_once(words, contents, lengths, given, text, room), text.raw)


def try_rooms():
    own, form = os.path.join(EXAMPLES, "own"), ["tables", *(f"{name}.csv" for name in TABLES)]
    runs = [["report", *form], ["place", *form, "candidates.csv"], ["topology", *form[1:3]], ["session", *form], ["trial", "2", "1"]]
    runs, count = runs + [[study, *form] for study in STUDIES], 0
    for words in runs + [["none"], []]:
        given = b"status\ntree\nfoo\n" if words[:1] == ["session"] else b""
        blocks = blocks_of(own, words)
        status, length, block = call_with(*blocks, given, 100000)
        whole = block[:length]
        for room in [*range(41), length - 1, length, length + 1]:
            front = whole[:room]
            wanted = (status if room >= length else library.TEXT_TOO_LONG, len(front))
            found = call_with(*blocks, given, room)
            agree((words, room), found, (*wanted, front + bytes([FILL]) * (room + BEHIND - len(front))))
            count += 1
    print(count, "blocks for the text: each has the front of it, and nothing behind")


def try_threads():
    cases = []
    for folder, words, given, status, printed in examples():
        if status in (0, 1) and words[0] != "trial":
            cases.append((folder, words, given, printed, status))
    wrong = []

    def work(seed):
        for case in random.Random(seed).choices(cases, k=60):
            if answer_of(*case[:3]) != case[3:]:
                wrong.append(case[1])

    threads = [threading.Thread(target=work, args=(seed,)) for seed in range(10)]
    for thread in threads:
        thread.start()
    for thread in threads:
        thread.join()
    agree("threads", wrong, [])
    print("10 threads: each of 600 answers is right")


MEMORY = """
import resource, sys
sys.path.insert(0, sys.argv[1])
import library_check as check
blocks = check.blocks_of(sys.argv[2], ["report", "tables", "n.csv", "s.csv", "b.csv", "m.csv"])
check.library.load()
room = 4000000
with open("/proc/self/statm") as file:
    used = int(file.read().split()[0]) * 4096
limit = used + room * 4 + int(sys.argv[3])
resource.setrlimit(resource.RLIMIT_AS, (limit, limit))
status, written, text = check.call_with(*blocks, b"", room)
is_left = text[written : written + 100] == bytes([check.FILL]) * 100 and (status != 6 or written == 0)
print(status, written, int(is_left))
"""


def try_memory():
    """Calls in processes of their own, whose memory is limited to what they have and some more."""
    rows = 20000
    lines = {
        "n.csv": ["node,source"] + [f"n{v},{int(v == 0)}" for v in range(rows)],
        "s.csv": ["switch,from,to,closed"],
        "b.csv": ["branch,from,to,inservice"] + [f"b{v},n{v},n{v + 1},1" for v in range(rows - 1)],
        "m.csv": ["meter,kind,at,inservice"] + [f"m{v},flow,b{v},1" for v in range(rows - 1)],
    }
    found = []
    with tempfile.TemporaryDirectory() as folder:
        for name, some in lines.items():
            open(os.path.join(folder, name), "w").write("\n".join(some) + "\n")
        for more in range(0, 32 << 20, 1 << 20):
            done = subprocess.run([sys.executable, "-c", MEMORY, HERE, folder, str(more)], stdout=subprocess.PIPE)
            found.append(tuple(map(int, done.stdout.split())))
    ends = {one[0] for one in found if one}
    if () in found or not all(one[2] for one in found) or ends != {library.NO_MEMORY, library.DONE}:
        fail("with little memory the calls ended so (status, bytes written, nothing else touched):", found)
    print(f"{len(found)} limits of memory: {sum(one[0] == library.NO_MEMORY for one in found)} calls end with 6, the others with the answer")


REFUSING = """
#include <stddef.h>
void *__real_malloc(size_t);
void *__real_realloc(void *, size_t);
void __real_free(void *);
static long asked, refused, held;
void refuse(long which) { asked = 0; refused = which; }
long count_asked(void) { return asked; }
long count_held(void) { return held; }
void *__wrap_malloc(size_t size) { void *made = asked++ == refused ? 0 : __real_malloc(size); held += made != 0; return made; }
void *__wrap_realloc(void *old, size_t size) {
  void *made = asked++ == refused ? 0 : __real_realloc(old, size);
  held += made && !old;
  return made;
}
void __wrap_free(void *old) { held -= old != 0; __real_free(old); }
"""


def refusing(file, folder):
    """The library with a count of its requests for memory, of which one can be refused; None where it can't be built."""
    archive, compiler = os.path.splitext(file)[0] + ".a", os.environ.get("CC", "cc")
    if not os.path.exists(archive) or not shutil.which(compiler):
        return None
    source, made = os.path.join(folder, "refusing.c"), os.path.join(folder, "refusing.so")
    open(source, "w").write(REFUSING)
    wraps = [f"-Wl,--wrap={name}" for name in ("malloc", "realloc", "free")]
    whole = ["-Wl,--whole-archive", archive, "-Wl,--no-whole-archive"]
    subprocess.run([compiler, "-shared", "-fPIC", "-O1", "-o", made, source, *wraps, *whole], check=True)
    return made


def try_refusals(file):
    with tempfile.TemporaryDirectory() as folder:
        made = refusing(file, folder)
        if not made:
            print("no request for memory is refused: there is no C compiler, or no libobs.a beside the library")
            return
        counted, given = ctypes.CDLL(made), os.environ["OBS_LIBRARY"]
        os.environ["OBS_LIBRARY"] = made
        total = 0
        for name, words, lines in COMMANDS:
            blocks = blocks_of(os.path.join(EXAMPLES, name), words)
            counted.refuse(-1)
            whole = call_with(*blocks, relations.lines_of(lines), 100000)
            nothing = (library.NO_MEMORY, 0, bytes([FILL]) * len(whole[2]))
            for which in range(counted.count_asked()):
                counted.refuse(which)
                found = call_with(*blocks, relations.lines_of(lines), 100000)
                if found not in (nothing, whole) or counted.count_held():
                    fail(words, "request", which, "refused: status", *found[:2], "held", counted.count_held())
                total += 1
        library_stays.try_refusals(counted)
    os.environ["OBS_LIBRARY"] = given
    print(total, "requests for memory are refused, one a call: 6 and nothing written, or the whole answer, and nothing is kept")


def try_malformed():
    own = os.path.join(EXAMPLES, "own")
    words, contents, lengths = blocks_of(own, ["report", "tables", *(f"{name}.csv" for name in TABLES)])
    top = (1 << 64) - 1
    blocks = {
        "no zero byte at the end": (words[:-1], contents, lengths),
        "a word that is no UTF-8": (words.replace(b"nodes", b"nod\xff"), contents, lengths),
        "half a letter": (words[:-1] + b"\xc3\0", contents, lengths),
        "a letter of UTF-16": (words[:-1] + b"\xed\xa0\x80\0", contents, lengths),
        "a length less": (words, contents, lengths[:-1]),
        "a length more": (words, contents, lengths + [0]),
        "no lengths": (words, contents, []),
        "a byte less": (words, contents[:-1], lengths),
        "a byte more": (words, contents + b"x", lengths),
        "no contents": (words, b"", lengths),
        "contents of no word": (b"", b"x", []),
        "a length of no word": (b"", b"", [0]),
        "too long a length": (words, contents, lengths[:-1] + [top]),
        "a sum that wraps around": (words, contents, [top, 1, *lengths[2:]]),
    }
    for what, block in blocks.items():
        for room in (0, 1, 40, 5000):
            agree((what, room), call_with(*block, b"", room), (library.MALFORMED, 0, bytes([FILL]) * (room + BEHIND)))
    print(len(blocks), "kinds of malformed blocks are refused, and nothing is written")


def main(file, program, seconds=""):
    os.environ["OBS_LIBRARY"] = os.path.abspath(file)
    try_examples(os.path.abspath(program))
    if seconds:
        try_malformed()
        return library_guards.try_all(float(seconds))
    try_rows()
    try_sessions()
    try_limits()
    try_rooms()
    try_malformed()
    try_threads()
    library_stays.try_all(os.environ["OBS_LIBRARY"], os.path.abspath(program))
    try_memory()
    try_refusals(os.environ["OBS_LIBRARY"])
    library_guards.try_all(30)


if __name__ == "__main__":
    if len(sys.argv) not in (3, 4):
        sys.exit(__doc__.split("\n\n")[0])
    main(*sys.argv[1:])
