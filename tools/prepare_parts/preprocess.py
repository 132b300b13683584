"""The first pass: the file as the preprocessor leaves it, with the place from which each line came.

`cc -E` expands macros and includes. Headers of the library are those in the folder `headers` beside this file, which hold macros and names
of types alone. The lines that tell places are taken out of what it writes, so that a number of a line of the text leads to a file and a
line through a table; what an own header holds belongs to the line of FILE on which it is included.
"""
import os
import re
import subprocess

from faults import Unable

HEADERS = os.path.join(os.path.dirname(os.path.realpath(__file__)), "headers")
MARKER = re.compile(r'# (\d+) "((?:[^"\\]|\\.)*)"((?: \d)*)$')
KEPT = ("stdio.h", "stdlib.h")


class Source:
    """The text behind the preprocessor, and where each of its lines came from."""

    def __init__(self, main):
        self.main = main
        self.lines = []
        self.places = []
        self.included = []
        self.faults = []

    @property
    def text(self):
        return "\n".join(self.lines) + "\n"

    def origin(self, line):
        """The file and the line of it from which a line of the text came."""
        return self.places[min(line, len(self.places)) - 1][:2]

    def line_in_main(self, line):
        """The line of FILE to which a line of the text belongs."""
        return self.places[min(line, len(self.places)) - 1][2]


def run_preprocessor(path, defines, folders):
    words = ["cc", "-E", "-std=c99", "-undef", "-nostdinc", "-I", HEADERS]
    words += [word for folder in folders for word in ("-I", folder)]
    words += [word for define in defines for word in ("-D", define)]
    try:
        done = subprocess.run(words + [path], stdin=subprocess.DEVNULL, stdout=subprocess.PIPE, stderr=subprocess.PIPE)
    except FileNotFoundError:
        raise Unable(["prepare: there is no cc, which expands macros: install a C compiler (Debian: apt install gcc)"], 70) from None
    told = done.stderr.decode("latin-1").split("\n")
    if done.returncode:
        lines = [re.sub(": fatal error: ", ": error: ", line) for line in told if re.search(": (fatal )?error: ", line)]
        raise Unable([explained(line) for line in lines] or told, 1)
    return done.stdout.decode("latin-1")


def explained(line):
    """A line of the preprocessor, with the headers that there are where one is missing."""
    missing = re.search(r"error: <?([\w/.]+)>?[:'].*(No such file|not found)", line)
    if not missing:
        return line
    known = " ".join(f"<{name}>" for name in sorted(os.listdir(HEADERS)))
    return f"{line} (of the library there are {known})"


def unescaped(name):
    return re.sub(r"\\(.)", r"\1", name)


def preprocess(path, defines=(), folders=()):
    """The source of a file."""
    source = Source(path)
    walk = Walk(source)
    for text in run_preprocessor(path, defines, folders).split("\n"):
        marker = MARKER.match(text)
        if marker:
            walk.follow(int(marker.group(1)), unescaped(marker.group(2)), marker.group(3).split())
        else:
            walk.keep(text)
    return source


class Walk:
    """Where the preprocessor's output stands: the files that include each other, and the next line of the innermost one.

    The line of an include is known where its file is left: the marker there names the line behind it.
    """

    def __init__(self, source):
        self.source = source
        self.stack = []
        self.line = 1
        self.entered = 0
        self.headers = []

    def keep(self, text):
        file = self.stack[-1] if self.stack else self.source.main
        self.source.lines.append("" if text.startswith("#") else text)
        self.source.places.append((file, self.line, self.line))
        self.line += 1

    def follow(self, number, name, flags):
        """Goes where a marker leads: into a file, back to one, or to another line."""
        if not self.stack:
            self.stack.append(name)
        elif "1" in flags:
            if len(self.stack) == 1:
                self.entered = len(self.source.places)
                self.headers = []
            self.headers.append((name, self.stack[-1], len(self.stack) == 1))
            self.stack.append(name)
        elif "2" in flags:
            while len(self.stack) > 1 and self.stack[-1] != name:
                self.stack.pop()
            if len(self.stack) == 1:
                self.leave(max(number - 1, 1))
        self.line = number

    def leave(self, line):
        """What stands in a file that FILE includes belongs to that line of FILE."""
        places = self.source.places
        places[self.entered:] = [(file, at, line) for file, at, _ in places[self.entered:]]
        for name, by, in_main in self.headers:
            if os.path.dirname(os.path.realpath(name)) == HEADERS:
                self.note(os.path.basename(name), by, in_main, line)

    def note(self, header, by, in_main, line):
        """Keeps that a header of the library is included, by FILE or by an own header alone, which is told where its line has to stay."""
        known = [name for name, _ in self.source.included]
        if header in known:
            return
        if in_main or header not in KEPT:
            self.source.included.append((header, line))
        else:
            self.source.faults.append(f"{by}:1:1: error: <{header}> is included by an own header alone: write #include <{header}> "
                                      f"in front of line {line} of {self.source.main} too")
