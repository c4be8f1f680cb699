"""A session in which obs is asked and the answers are said: the lines of tools/talk."""
import copy
import difflib

import answer
from changes import changes, rows_changed, standing
from explaining import plain_text, sections_of, with_lists
from losing import STUDIES, loss_sections
from model_text import ASKS
from wording import Words, counted, quoted
from writing import contents_of, rows_of, write_tables

# Each edit with the table of its names, its flag, and the word that takes it back.
EDITS = {
    "open": ("switches", False, "close"),
    "close": ("switches", True, "open"),
    "trip": ("branches", False, "restore"),
    "restore": ("branches", True, "trip"),
    "lose": ("meters", False, "regain"),
    "regain": ("meters", True, "lose"),
}
SINGULAR = {"switches": "switch", "branches": "branch", "meters": "meter"}
MOST = 20
HELP = """Lines of the session, each answered by obs and said in sentences:
  open|close SWITCH, trip|restore BRANCH, lose|regain METER
  undo                 takes the last edit back that changed something
  mark, difference     remembers the present case; says what is otherwise than at the mark, or than at the beginning
  outages, pairs, stations
                       what the loss of a branch, of two meters, of a station would do now
  explain              the whole answer to the present case in sentences
  save FOLDER          writes the present case as tables
  help, quit
And as obs prints it: status, tree, bound, cert, islands, critical, report, and place where there are candidates.
"""


class Present(answer.Answer):
    """The answer to a case as it is now: the report is that of the session, and the buses are asked of its tables."""

    def __init__(self, asked, case):
        self.form = answer.Form(["tables", *(f"{part}.csv" for part in answer.FORMS["tables"])])
        self.case, self.contents = copy.deepcopy(case), contents_of(case)
        self.losses = self.plan = self.shortfall = self.remaining = None
        self.topology = asked.command("topology", {part: self.contents[part] for part in ("nodes", "switches")})
        lines = [line.split("\t") for line in asked.line("report").split("\n")[:-1]]
        self.take_report(lines)
        self.status = 0 if self.verdict == "observable" else 1
        self.find_network()
        self.find_items()


class Talk:
    """The case of a session that stays, with what it was at the mark, and the edits that can be taken back."""

    def __init__(self, asked, kind, contents):
        self.asked, self.has_candidates = asked, "candidates" in contents
        # A file with a fault ends it here.
        asked.line("status")
        self.case = answer.case_of(kind, contents)
        self.present = self.marked = Present(asked, self.case)
        self.done = []

    def answer(self, line):
        """What is said to a line, or None where the session is to end."""
        word, _, rest = line.partition(" ")
        if word in EDITS:
            return self.edit(word, rest, line)
        if word in ("quit", "exit"):
            return None
        if word == "save":
            return self.save(rest)
        calls = {"undo": self.undo, "help": lambda: HELP, "mark": self.mark, "difference": self.difference, "explain": self.explain}
        calls.update({study: lambda study=study: self.study(study) for study in STUDIES})
        if line in calls:
            return calls[line]()
        if line in ASKS:
            return self.asked.line(line) if line != "place" or self.has_candidates else "There are no candidates: begin with `with CAND`.\n"
        near = difflib.get_close_matches(word, [*EDITS, *ASKS, *calls, "save", "quit"], 1)
        return f"There is no line {quoted(line)}" + (f"; do you mean {near[0]}?" if near else "; help lists them.") + "\n"

    def row(self, word, name):
        """The row that an edit names, or None."""
        return next((row for row in getattr(self.case, EDITS[word][0]) if row[0] == name), None)

    def edit(self, word, name, line):
        text = self.asked.line(line)
        if not text.startswith("ok\t"):
            return self.refused(word, name, text)
        part, flag, back = EDITS[word]
        row = self.row(word, name)
        if row[3] == flag:
            return f"{quoted(name)} was so already; nothing changes. {standing(self.present)}\n"
        self.done.append((back, name))
        return self.change(row, part, flag)

    def change(self, row, part, flag):
        """The sentences of an edit that obs has made."""
        row[3] = flag
        before, self.present = self.present, Present(self.asked, self.case)
        state = {"switches": ("open", "closed")}.get(part, ("out of service", "in service"))[flag]
        said = [f"{SINGULAR[part].capitalize()} {quoted(row[0])} is {state}.", *changes(before, self.present), standing(self.present)]
        return "".join(f"{sentence}\n" for sentence in said)

    def refused(self, word, name, text):
        part = EDITS[word][0]
        rows = [row[0] for row in getattr(self.case, part)]
        near = difflib.get_close_matches(name, rows, 3, 0.5)
        meant = f" Near it: {', '.join(map(quoted, near))}." if near else ""
        if not name:
            return f"{word} wants the name of a {SINGULAR[part]}. Nothing was done.\n"
        code = text.rstrip("\n").split("\t")[-1]
        return f"There is no {SINGULAR[part]} {quoted(name)} ({code}). Nothing was done.{meant}\n"

    def undo(self):
        if not self.done:
            return "There is nothing to take back.\n"
        word, name = self.done.pop()
        text = self.asked.line(f"{word} {name}")
        if not text.startswith("ok\t"):
            raise answer.Failure(answer.OWN_FAILURE, f"obs refused to take an edit back: {text}")
        part, flag, _ = EDITS[word]
        return self.change(self.row(word, name), part, flag)

    def mark(self):
        self.marked = self.present
        return f"Marked. {standing(self.present)}\n"

    def difference(self):
        before, after = self.marked, self.present
        rows = rows_changed(before, after)
        if not rows:
            return "All is as it was.\n"
        count = counted(len(rows), "row is", "rows are")
        lines = [f"{count} otherwise: {Words(after, MOST).list(rows)}."]
        numbers = [f"{word} {before.counts[word]:,}, now {after.counts[word]:,}" for word in after.counts
                   if before.counts[word] != after.counts[word]]
        lines += [f"Counts: {'; '.join(numbers)}."] if numbers else []
        return "".join(f"{line}\n" for line in [*lines, *changes(before, after), standing(after)])

    def study(self, word):
        lines = self.asked.command(word, self.present.contents)[:-1]
        self.present.losses = {study: lines if study == word else [] for study in STUDIES}
        entries = dict(loss_sections(self.present, Words(self.present, MOST)))
        titles = dict(zip(STUDIES, entries))
        self.present.losses = None
        found = with_lists([(titles[word], entries[titles[word]])])
        if found:
            return plain_text(found, MOST)
        return "Each live meter is critical alone.\n" if word == "pairs" and self.present.critical else "There is nothing to lose.\n"

    def explain(self):
        return plain_text(sections_of(self.present, Words(self.present, MOST)), MOST)

    def save(self, folder):
        if not folder:
            return "save wants the name of a folder.\n"
        rows = rows_of(self.case)
        try:
            write_tables({part: some for part, some in rows.items() if part != "candidates" or self.has_candidates}, folder)
        except (answer.Failure, OSError) as error:
            return f"{str(error).rstrip()}\n"
        return f"The present case is written to {folder}.\n"
