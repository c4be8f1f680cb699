"""Who is asked in a session that stays: the library, where it is there or is named, else the program by its standard input and output.

Both keep the case of some files, answer a line as it comes, and answer commands over the contents of other files.
"""
import os
import subprocess
import sys
import tempfile

import answer
import model_reads


def begin(option, form, contents):
    """A session over these contents, by the program or the library that is named, or by the one that is found."""
    named = option or os.environ.get("OBS")
    if named and named.endswith(".so"):
        os.environ["OBS_LIBRARY"] = os.path.abspath(named)
    sys.path.insert(0, os.path.join(answer.HOME, "python"))
    if not named or named.endswith(".so"):
        try:
            return ByLibrary(form, contents)
        except LookupError:
            pass
    return ByProgram(answer.program_of(option), form, contents)


def lines_of(text):
    return [line.split("\t") for line in text.split("\n")[:-1]]


class ByLibrary:
    """The calls of libobs.so. LookupError where there is none."""

    def __init__(self, form, contents):
        import obs

        self.obs = obs
        files = tuple((part, contents[part]) for part in answer.FORMS[form.kind])
        try:
            self.session = obs.LiveSession(obs.Case(form.kind, files), contents.get("candidates"))
        except obs.LibraryMissing as missing:
            raise LookupError from missing
        except obs.Fault as fault:
            raise answer.Failure(3, fault.text) from fault

    def line(self, line):
        """The text that answers a line."""
        return str(self.session.line(line))

    def command(self, word, contents):
        """The lines that answer a command over tables of these contents."""
        form = [] if word == "topology" else ["tables"]
        _, text = self.obs.run([word, *form, *contents.values()])
        return lines_of(text.decode("utf-8", "surrogateescape"))

    def end(self):
        self.session.end()


class ByProgram:
    """The program, which reads copies of the files from a folder of its own."""

    def __init__(self, program, form, contents):
        self.program, self.folder = program, tempfile.TemporaryDirectory()
        names = {part: f"{part}.csv" if part in model_reads.COLUMNS else part for part in contents}
        self.write(names, contents)
        words, with_candidates = form.words(names)
        words += ["with", with_candidates[-1]] if "candidates" in names else []
        how = {"cwd": self.folder.name, "stdin": subprocess.PIPE, "stdout": subprocess.PIPE}
        try:
            self.process = subprocess.Popen([program, "session", *words], **how)
        except OSError as error:
            raise answer.Failure(answer.OWN_FAILURE, f"the program can't be run: {error}\n") from error

    def write(self, names, contents):
        for part, name in names.items():
            with open(os.path.join(self.folder.name, name), "wb") as file:
                file.write(contents[part])

    def line(self, line):
        try:
            self.process.stdin.write(line.encode("utf-8", "surrogateescape") + b"\n")
            self.process.stdin.flush()
        except BrokenPipeError:
            pass
        found = []
        while not found or found[0][:2] not in ("ok", "re") and found[-1] != "end\n" and not found[0].startswith("fault\t"):
            found.append(self.process.stdout.readline().decode("utf-8", "surrogateescape"))
            if not found[-1]:
                status = self.process.wait()
                raise answer.Failure(status if status not in (0, 1) else answer.OWN_FAILURE, "".join(found))
        if found[0].startswith("fault\t"):
            raise answer.Failure(self.process.wait(), found[0])
        return "".join(found)

    def command(self, word, contents):
        names = {part: f"now-{part}.csv" for part in contents}
        self.write(names, contents)
        form = [] if word == "topology" else ["tables"]
        return answer.run(self.program, [word, *form, *names.values()], self.folder.name, True)[0]

    def end(self):
        try:
            self.process.stdin.close()
        except BrokenPipeError:
            # It has ended already, and said why.
            pass
        self.process.wait()
        self.process.stdout.close()
        self.folder.cleanup()
