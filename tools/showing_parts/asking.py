"""A C file and what the built programs tell of it, for the tools that show it: they hold no knowledge of C."""
import os
import re
import subprocess
import sys
import tempfile

TOP = os.path.join(os.path.dirname(os.path.realpath(__file__)), "..", "..")
TOOLS = os.path.join(TOP, "tools")
SLICER = os.environ.get("SLICER", os.path.join(TOP, "slicer"))
SLICE_LINES = os.environ.get("SLICE_LINES", os.path.join(TOP, "slice_lines"))
MOST_LINES = 4096
MOST_SLICES = 64
VERTEX = re.compile(r"(\d+) (\S+) (.+)")
EDGE = re.compile(r"(\d+) -> (\d+) (\w+)")
STATEMENT = re.compile(r"\d+ \S+ (?:statement|call) (\d+)\b.*")


class Source:
    """A C file as it was read at first: its lines to show, and a text of it to ask about, whose lines have the same numbers."""

    def __init__(self, file, is_prepared=False):
        self.file = file
        try:
            with open(file, "rb") as source:
                self.bytes = source.read()
        except OSError as fault:
            sys.stderr.write(f"{file}: {fault.strerror}\n")
            sys.exit(3)
        lines = self.bytes.split(b"\n")
        self.lines = [line.decode("utf8", "replace").rstrip("\r") for line in (lines if lines[-1] else lines[:-1])]
        self.folder = tempfile.TemporaryDirectory()
        self.text = os.path.join(self.folder.name, os.path.basename(file))
        with open(self.text, "wb") as copy:
            copy.write(self.bytes)
        if is_prepared:
            self.prepare()

    def prepare(self):
        """Puts what tools/prepare makes of the file in the place of the text."""
        made = os.path.join(self.folder.name, "prepared")
        words = [os.path.join(TOOLS, "prepare"), self.text, "-o", made, "-I", os.path.dirname(os.path.abspath(self.file))]
        call = subprocess.run(words, stderr=subprocess.PIPE)
        self.tell(call.stderr)
        if call.returncode != 0:
            sys.exit(call.returncode)
        os.replace(made, self.text)

    def tell(self, said):
        """Passes on what was said about the text, under the name of the file."""
        sys.stderr.buffer.write(said.replace(self.text.encode(), self.file.encode()))
        sys.stderr.buffer.flush()

    def called(self, program, words, asked):
        """What a call of a program writes. Where it is refused that is told, and all ends with the program's status."""
        call = subprocess.run([program, *words], stdout=subprocess.PIPE, stderr=subprocess.PIPE)
        if call.returncode == 0:
            return call.stdout.decode("utf8", "replace")
        why = [os.path.join(TOOLS, "why"), self.text, *asked[:MOST_SLICES]]
        told = subprocess.run(why, stdout=subprocess.DEVNULL, stderr=subprocess.PIPE)
        self.tell(told.stderr if told.returncode == call.returncode and told.stderr else call.stderr)
        sys.exit(call.returncode)

    def graph(self):
        """The lines of the dependence graph."""
        return self.called(SLICER, ["graph", self.text], ["1"]).splitlines()

    def members(self, line):
        """The vertices on which a line depends, a line each."""
        return self.vertices("members", [line])

    def vertices(self, command, lines):
        """The vertices that a command writes for the lines, a line each."""
        return self.called(SLICER, [command, self.text, *lines], lines).splitlines()

    def kept(self, lines):
        """For each of the lines, in their order, the lines whose statements its slice keeps."""
        found = []
        for at in range(0, len(lines), MOST_LINES):
            some = lines[at:at + MOST_LINES]
            written = self.called(SLICE_LINES, [self.text, *some], some).splitlines()
            found += [[int(word) for word in line.split(":", 1)[1].split()] for line in written]
        return found

    def slices(self, lines):
        """For each of the lines, in their order, its slice, as it is written."""
        found = []
        for at in range(0, len(lines), MOST_SLICES):
            some = lines[at:at + MOST_SLICES]
            written = self.called(SLICER, ["slice", self.text, *some], some)
            found += re.split(r"^(?=/\* slice )", written, flags=re.M)[1:]
        return found


def lines_of_statements(vertices):
    """The lines of the statements among the vertices of a graph, one for each statement."""
    return [int(found[1]) for found in map(STATEMENT.fullmatch, vertices) if found]
