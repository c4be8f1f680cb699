"""The library for C, called as the program is: over files in a folder, with the program's statuses.

What the Python module reads of an answer and writes again is to be the same text.
"""
import os
import sys

HOME = os.path.dirname(os.path.dirname(os.path.abspath(__file__)))
MOST_BYTES = 16777216


class Library:
    """The library of this file, over files of the folder. The files are read here, as many bytes as the program asks for."""

    def __init__(self, file, folder):
        os.environ["OBS_LIBRARY"] = os.path.abspath(file)
        sys.path.insert(0, os.path.join(HOME, "python"))
        from obs import calls, library, program

        self.library, self.calls, self.program, self.folder = library, calls, program, folder

    def run(self, words, given=b""):
        """What is written, and the status: that of the program too where a word isn't UTF-8, or a file can't be read."""
        words = [os.fsencode(word) for word in words]
        if not all(map(self.program.is_text, words)):
            words = []
        pairs = [(word, None) for word in words]
        names = self.program.file_words(words)
        status, text = self.library.call(pairs, given)
        if status == self.library.USAGE or not names:
            return text, status
        for k in names:
            content = self.content(words[k])
            if content is None:
                return b"", 4
            pairs[k] = (words[k], content)
        status, text = self.library.call(pairs, given)
        if status in (self.library.DONE, self.library.SHORT):
            answer = self.calls.read(words[0].decode(), status, text, given)
            if str(answer).encode("utf-8", "surrogateescape") != text:
                return b"read otherwise by the Python module: " + text, status
        return text, status

    def content(self, name):
        try:
            with open(os.path.join(os.fsencode(self.folder), name), "rb") as file:
                return file.read(MOST_BYTES + 1)
        except OSError:
            return None
