"""Tries the sessions that stay of the library for C: called by tools/library_check.py, which says how.

- random sessions, line by line: the answers put together and the last status are those of one call of obs_run with all lines
- those of the examples: they are those of the program; and random ones by the example lines.c, built with the address sanitizer
- blocks for the text of 0 to 40 bytes, and of a byte less, none more and one more than the answer: the status, the front that is written,
  and that nothing behind it is touched; the line said again with room has its whole answer
- forty sessions side by side, whose lines come in turns, and ten threads at once with sessions of their own; one that threads share
- calls out of turn: 9, and nothing done; a begin that is refused: what obs_run writes, and none stays
- each request for memory of a begin and of a line refused in turn: 6 and nothing written, or the whole answer; and at the end nothing is held
"""
import os
import random
import shutil
import subprocess
import tempfile
import threading

import library_check as check
import obs
from cases import csv_of, random_case, records_of, session_lines
from memory import COMMANDS
from obs import library

TABLES = ["tables", "n", "s", "b", "m"]
ROOM = 100000


class Stay:
    """A session that stays, called with blocks of any room."""

    def __init__(self):
        self.kept = library.Kept()

    def begin(self, words, contents, lengths, room=ROOM):
        return self.called(room, lambda text: library.begin_once(self.kept, words, contents, lengths, text, room))

    def line(self, line, room=ROOM):
        return self.called(room, lambda text: library.line_once(self.kept, line, text, room))

    def end(self):
        library.end(self.kept)

    @staticmethod
    def called(room, call):
        """The status and what is written. Nothing behind it is touched."""
        text = check.block_of(room)
        status, written = call(text)
        front = text.raw[: max(written, 0)]
        check.agree("behind the text", text.raw, front + check.block_of(room).raw[len(front) :])
        return status, front

    def is_none(self):
        return not self.kept.full and not self.kept.at


def stated(blocks, given):
    status, written, text = check.call_with(*blocks, given, 4000000)
    return status, text[:written]


def lines_in(given):
    """The lines of an input."""
    lines = given.split(b"\n")
    return [line[:-1] if line.endswith(b"\r") else line for line in (lines[:-1] if not lines[-1] else lines)]


def said(stay, lines):
    """The last status, and the answers put together. An empty line tells the status where there is none."""
    status, text = stay.line(b"")
    check.agree("an empty line", text, b"")
    for line in lines:
        status, more = stay.line(line)
        text += more
    return status, text


def random_session(seed, most_offered=0.5):
    """Blocks of a session and an input."""
    r = random.Random(seed)
    case = random_case(r)
    offered = r.random() < most_offered
    files = [csv_of(r, records) for records in records_of(case)[: 5 if offered else 4]]
    words = ["session", *TABLES] + ["with", "c"] * offered
    contents = [b"", b"", *files[:4]] + [b"", files[-1]] * offered
    blocks = b"".join(word.encode() + b"\0" for word in words), b"".join(contents), list(map(len, contents))
    return blocks, session_lines(r, case)


def try_random():
    count = 0
    for seed in range(1000):
        blocks, given = random_session(seed)
        stay = Stay()
        began = stay.begin(*blocks)
        if began[0]:
            check.agree((seed, "begin"), began, stated(blocks, given))
            check.agree((seed, "none stays"), stay.is_none(), True)
            continue
        check.agree((seed, "begin"), began, (0, b""))
        check.agree((seed, "lines"), said(stay, lines_in(given)), stated(blocks, given))
        stay.end()
        check.agree((seed, "end"), stay.is_none(), True)
        count += 1
    if count < 500:
        check.fail("only", count, "random sessions began")
    print(count, "random sessions: line by line they are answered as all at once")


def example_sessions():
    for name, words, lines in COMMANDS:
        if words[0] == "session":
            yield os.path.join(check.EXAMPLES, name), words, [line.encode() for line in lines]


def built_lines(file, folder):
    """The example lines.c, with the address sanitizer; None where it can't be built."""
    archive, compiler = os.path.splitext(file)[0] + ".a", os.environ.get("CC", "cc")
    if not os.path.exists(archive) or not shutil.which(compiler):
        return None
    made, source = os.path.join(folder, "lines"), os.path.join(check.EXAMPLES, "c", "lines.c")
    include = os.path.join(check.HERE, "..", "include")
    done = subprocess.run([compiler, "-std=c99", "-O1", "-g", "-fsanitize=address", "-I", include, "-o", made, source, archive])
    return made if done.returncode == 0 else None


def try_examples(file, program):
    count = 0
    with tempfile.TemporaryDirectory() as folder:
        made = built_lines(file, folder)
        for where, words, lines in example_sessions():
            given = b"".join(line + b"\n" for line in lines)
            run = lambda command: subprocess.run(command, cwd=where, input=given, stdout=subprocess.PIPE, stderr=subprocess.PIPE)
            done = run([program, *words])
            stay = Stay()
            check.agree((words, "begin"), stay.begin(*check.blocks_of(where, words)), (0, b""))
            check.agree(words, said(stay, lines), (done.returncode, done.stdout))
            stay.end()
            count += 1
        print(count, "sessions of examples are answered as by the program")
        print(try_sane(made, folder) if made else "no", "random sessions are answered by lines.c, with the address sanitizer")


def try_sane(made, folder):
    """Random sessions by the example lines.c, built with the address sanitizer: how many."""
    names = ["nodes.csv", "switches.csv", "branches.csv", "meters.csv"]
    for seed in range(7000, 7100):
        (words, contents, lengths), given = random_session(seed, 0)
        at = 0
        for name, length in zip(names, lengths[2:]):
            with open(os.path.join(folder, name), "wb") as file:
                file.write(contents[at : at + length])
            at += length
        done = subprocess.run([made, *names], cwd=folder, input=given, stdout=subprocess.PIPE, stderr=subprocess.PIPE)
        status, text = stated((words, contents, lengths), given)
        wanted = (status, text if status < 2 else b"", False)
        check.agree((seed, "lines.c"), (done.returncode, done.stdout, b"Sanitizer" in done.stderr), wanted)
    return seed - 6999


def try_rooms():
    count = 0
    for where, words, lines in example_sessions():
        stay = Stay()
        stay.begin(*check.blocks_of(where, words))
        for line in lines:
            status, whole = stay.line(line)
            for room in [*range(41), len(whole) - 1, len(whole), len(whole) + 1]:
                if room < 0:
                    continue
                fits = len(whole) <= room
                check.agree((line, room), stay.line(line, room), (status if fits else library.TEXT_TOO_LONG, whole[:room]))
                count += 1
            check.agree((line, "said again"), stay.line(line), (status, whole))
        stay.end()
    print(count, "blocks for the answers to lines: each has the front of it, and the line said again has all")


def in_turns(seeds):
    """Sessions side by side, whose lines come in turns. The first that is otherwise, or None."""
    r, open_ones = random.Random(seeds[0]), []
    for seed in seeds:
        blocks, given = random_session(seed)
        stay = Stay()
        if stay.begin(*blocks)[0] == library.DONE:
            open_ones.append([stay, lines_in(given), said(stay, []), stated(blocks, given)])
    wrong = None
    while open_ones:
        one = r.choice(open_ones)
        if one[1]:
            status, text = one[0].line(one[1].pop(0))
            one[2] = status, one[2][1] + text
        else:
            one[0].end()
            open_ones.remove(one)
            if one[2] != one[3]:
                wrong = one[2:]
    return wrong


def try_side_by_side():
    check.agree("side by side", in_turns(range(5000, 5040)), None)
    wrong = []
    work = lambda first: wrong.append(in_turns(range(first, first + 30)))
    threads = [threading.Thread(target=work, args=(6000 + 100 * k,)) for k in range(10)]
    for thread in threads:
        thread.start()
    for thread in threads:
        thread.join()
    check.agree("threads", wrong, [None] * 10)
    print("40 sessions side by side, and 10 threads with 30 each: every answer is right")


def try_python():
    case = obs.tables(*(os.path.join(check.EXAMPLES, "own", f"{name}.csv") for name in check.TABLES))
    with obs.LiveSession(case) as session:
        check.agree("observable", session.observable, False)
        check.agree("an edit", session.line("trip North-West"), obs.Ok(1, 2))
        check.agree("a comment", session.line("# none"), None)
        check.agree("a refused line", session.line(b"trip nobody\r"), obs.Refused(6, "UnknownBranch"))
        check.agree("an ask", str(session.line("report")), str(obs.session(case, ["trip North-West", "report"]).answers[1]))
        threads = [threading.Thread(target=lambda: [session.line("report") for _ in range(50)]) for _ in range(10)]
        for thread in threads:
            thread.start()
        for thread in threads:
            thread.join()
        session.line("restore North-West")
        check.agree("report", str(session.line("report")), str(obs.report(case)))
    for wrong, error in [(lambda: session.line("status"), obs.Ended), (lambda: obs.LiveSession(obs.tables(b"x", b"", b"", b"")), obs.Fault)]:
        try:
            wrong()
            check.fail("no", error)
        except error:
            pass
    print("the class LiveSession answers as `session` does")


def try_turns():
    (where, words, lines), *_ = example_sessions()
    blocks, out = check.blocks_of(where, words), (library.OUT_OF_TURN, b"")
    stay = Stay()
    check.agree("a line before", stay.line(b"status"), out)
    stay.end()
    report = [b"report" + blocks[0][len(b"session") :], *blocks[1:]]
    check.agree("words of another command", stay.begin(*report), stated((b"", b"", []), b""))
    for room in range(41):
        status, whole = stated((b"", b"", []), b"")
        check.agree(("usage", room), stay.begin(b"", b"", [], room), (library.TEXT_TOO_LONG, whole[:room]))
    check.agree("malformed", stay.begin(blocks[0][:-1], *blocks[1:]), (library.MALFORMED, b""))
    faulty = blocks[0], b"x" + blocks[1][1:], blocks[2]
    check.agree("a fault", stay.begin(*faulty), stated(faulty, b""))
    check.agree("none stays", (stay.is_none(), stay.line(b"status")), (True, out))
    check.agree("begin", stay.begin(*blocks), (0, b""))
    before = stay.line(b"report")
    check.agree("a second begin", stay.begin(*blocks), out)
    check.agree("as before", stay.line(b"report"), before)
    stay.end()
    stay.end()
    check.agree("a line after", stay.line(b"status"), out)
    check.agree("again", (stay.begin(*blocks), stay.line(b"report")), ((0, b""), before))
    stay.end()
    print("calls out of turn do nothing, and behind a begin that is refused none stays")


def try_refusals(counted):
    """With a library that counts and refuses its requests for memory."""
    total = 0
    for where, words, lines in example_sessions():
        blocks, nothing = check.blocks_of(where, words), (library.NO_MEMORY, b"")
        counted.refuse(-1)
        stay = Stay()
        stay.begin(*blocks)
        requests, answers = counted.count_asked(), [stay.line(line) for line in lines]
        stay.end()
        for which in range(requests):
            counted.refuse(which)
            found = stay.begin(*blocks)
            if found != nothing or not stay.is_none() or counted.count_held():
                check.fail(words, "request", which, "of a begin refused:", found, "held", counted.count_held())
            total += 1
        counted.refuse(-1)
        stay.begin(*blocks)
        for line, answer in zip(lines, answers):
            counted.refuse(0)
            check.agree((line, "refused"), stay.line(line), nothing)
            counted.refuse(-1)
            check.agree((line, "said again"), stay.line(line), answer)
            check.agree((line, "requests"), counted.count_asked(), 1)
            total += 1
        stay.end()
        check.agree("held", counted.count_held(), 0)
    print(total, "requests for memory of sessions are refused, one a call: 6 and nothing done, and nothing is kept")


def try_all(file, program):
    try_random()
    try_examples(file, program)
    try_rooms()
    try_side_by_side()
    try_turns()
    try_python()
