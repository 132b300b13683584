"""Values of slices against those of their programs, by the built slicer alone: what `compare --values` does.

Programs are random ones that use pointers, structs, malloc, free and recursion. Of each some lines are sliced. Where a slice has its
criterion on one line, `trace` of the file and of the slice must write the same bytes on each input on which the program ends, with as many
acts as the program takes. Of some programs the file and a slice are also compiled by gcc with its sanitizers, and must show the same at the
line.
"""
import collections
import concurrent.futures
import os
import random
import re
import subprocess
import tempfile

from generate_memory import MemoryGenerator

MOST_ACTS = 20000
LINES = 5
COMPILED = 5
SECONDS = 60
HEADER = re.compile(rb"/\* slice \d+:((?: \d+)*) \*/\n")
HEAD = re.compile(r"(?:static )?\w[\w *]*\b(f\d+)\(.*\) \{$")
CALLED = re.compile(r"\b(f\d+)\(")
TYPE = r"(?:unsigned|signed|long|int|short|char|struct \w+)"
DECLARED = re.compile(rf"(?:{TYPE} )+\**(\w+) = [^{{;]*;$")
OTHERS = re.compile(rf"{TYPE} |static |return\b|free\(|for\b|do\b|}}")
STORED = re.compile(r"([^=]*?) (?:[-+*/%&|^]|<<|>>)?= [^;]*;$")
BUMPED = re.compile(r"(?=\+\+|--|.*(?:\+\+|--);)(?:\+\+|--)?([^;]*?)(?:\+\+|--)?;$")
GCC = ["gcc", "-std=gnu11", "-w", "-O1", "-fsanitize=address,undefined", "-fno-sanitize-recover=undefined", "-x", "c"]
SHOW = (
    "#define SHOW(x) fprintf(stderr, \"%ld\\n\", __builtin_classify_type(x) == 5 ? (long)((x) != 0) : (long)(x))\n"
    "#include <stdio.h>\n#line 1\n"
)
REPORTED = re.compile(rb"runtime error|Sanitizer")


def calls_itself(text):
    """Whether some function of a generated program is called again while it runs."""
    called, inside = {}, None
    for line in text.split("\n"):
        head = HEAD.match(line)
        if head or line.startswith("int main"):
            inside = called.setdefault(head[1] if head else "main", set())
        elif inside is not None:
            inside.update(CALLED.findall(line))
    for first in called:
        seen, left = set(), [first]
        while left:
            more = called.get(left.pop(), set()) - seen
            seen |= more
            left += more
        if first in seen:
            return True
    return False


def programs(first, count, size):
    """So many seeds with their programs, from the first seed on: those that use malloc, free and recursion."""
    seed = first
    while count > 0:
        text = MemoryGenerator(seed, size).program()
        if "malloc(" in text and "free(" in text and calls_itself(text):
            count -= 1
            yield seed, text
        seed += 1


def shown_line(line):
    """A line of a text, changed so that it also writes its value to the error output, or None where it isn't of such a form."""
    words = line.strip()
    margin = line[:len(line) - len(line.lstrip())]
    if words.startswith("printf("):
        return f"{margin}fprintf(stderr, {words[len('printf('):]}"
    if words.startswith("putchar("):
        return f"{margin}fputc({words[len('putchar('):-2]}, stderr);"
    declared = DECLARED.match(words)
    if declared:
        return f"{line} SHOW({declared[1]});"
    if words.count(";") != 1 or OTHERS.match(words):
        return None
    left = STORED.match(words) or BUMPED.match(words)
    return f"{margin}{words[:-1]}, SHOW({left[1]});" if left else None


def shown(text, number):
    """A text whose line with this number writes its value to the error output, or None."""
    lines = text.split("\n")
    line = shown_line(lines[number - 1])
    if line is None:
        return None
    lines[number - 1] = line
    return SHOW + "\n".join(lines)


class Program:
    """A program in a folder of its own, with what is counted and what differs."""

    def __init__(self, slicer, seed, text, folder):
        self.slicer, self.seed, self.text, self.folder = slicer, seed, text, folder
        self.counts, self.differences = collections.Counter(), []
        self.file = self.written("program.c", text.encode())

    def written(self, name, data):
        path = os.path.join(self.folder, name)
        with open(path, "wb") as file:
            file.write(data)
        return path

    def differs(self, line, what):
        self.differences.append(f"memory {self.seed} line {line}: {what}")

    def call(self, *words):
        return subprocess.run([self.slicer, *map(str, words)], capture_output=True, timeout=SECONDS, check=False)

    def acts(self, path):
        """How many acts the program takes on an input, or None where it has an undefined act or needs too many."""
        status = lambda steps: self.call("run", self.file, "--input", path, "--steps", steps).returncode
        end = status(MOST_ACTS)
        if end != 0:
            self.counts["runs undefined" if end == 6 else "runs of too many acts"] += 1
            if end not in (6, 7):
                self.differs(0, f"run has the status {end}")
            return None
        self.counts["runs ended"] += 1
        low, high = 0, MOST_ACTS
        while low + 1 < high:
            middle = (low + high) // 2
            low, high = (low, middle) if status(middle) == 0 else (middle, high)
        return high

    def line(self, number, ends):
        """The slice at a line and the line of its criterion, traced as the program is; nothing where that is on several lines.

        None: no statement starts on the line."""
        made = self.call("slice", self.file, number)
        if made.returncode == 1:
            return None
        header = HEADER.match(made.stdout)
        if made.returncode != 0 or not header:
            self.differs(number, f"slice has the status {made.returncode}")
            return ()
        self.counts["lines"] += 1
        at = header[1].split()
        if len(at) != 1:
            self.counts["slices with the criterion on several lines"] += 1
            return ()
        self.counts["slices traced"] += 1
        sliced = self.written("slice.c", made.stdout)
        for path, acts in ends:
            self.traced(number, sliced, at[0].decode(), path, acts)
        return made.stdout.decode(), int(at[0])

    def traced(self, number, sliced, at, path, acts):
        rest = ("--input", path, "--steps", acts)
        wanted, found = self.call("trace", self.file, number, *rest), self.call("trace", sliced, at, *rest)
        self.counts["traces compared"] += 1
        self.counts["traces with an event"] += bool(wanted.stdout)
        if wanted.returncode != 0:
            self.differs(number, f"on {os.path.basename(path)} trace has the status {wanted.returncode} where run has 0")
        elif found.returncode != 0 or found.stdout != wanted.stdout:
            self.differs(number, f"on {os.path.basename(path)} the slice has other values, or the status {found.returncode}")

    def built(self, name, text):
        """A compiled text, and what the compiler said."""
        path = os.path.join(self.folder, name)
        made = subprocess.run([*GCC, "-", "-o", path], input=text.encode(), capture_output=True, check=False)
        return path if made.returncode == 0 else None

    def compiled(self, number, slice_and_line, ends):
        """File and slice, compiled by gcc with its sanitizers, show the same at the line. False: the line shows nothing."""
        texts = [shown(self.text, number), shown(*slice_and_line)]
        if None in texts:
            return False
        paths = [self.built(name, text) for name, text in zip(("program", "slice"), texts)]
        if None in paths:
            self.differs(number, "gcc refuses the program" if paths[0] is None else "gcc refuses the slice")
            return True
        self.counts["programs compiled"] += 1
        for path, _ in ends:
            wanted, found = (self.run_of(built, path) for built in paths)
            self.counts["compiled runs compared"] += 1
            self.counts["compiled runs that show something"] += bool(wanted)
            if REPORTED.search(wanted) or wanted != found:
                self.differs(number, f"on {os.path.basename(path)}, compiled by gcc, the slice shows {found!r} and the program {wanted!r}")
        return True

    @staticmethod
    def run_of(built, path):
        """What a compiled program writes to the error output."""
        settings = dict(os.environ, ASAN_OPTIONS="detect_leaks=0")
        with open(path, "rb") as text:
            return subprocess.run([built], stdin=text, capture_output=True, timeout=SECONDS, env=settings, check=False).stderr

    def all(self, inputs, is_compiled):
        ends = [(path, acts) for path, acts in ((path, self.acts(path)) for path in inputs) if acts]
        lines = list(range(1, self.text.count("\n") + 1))
        random.Random(self.seed).shuffle(lines)
        left, is_due = LINES, is_compiled and bool(ends)
        for number in lines:
            if left == 0 and not is_due:
                break
            made = self.line(number, ends)
            if made is None:
                continue
            left = max(left - 1, 0)
            if is_due and made and self.compiled(number, made, ends):
                is_due = False


def compare_values(slicer, first, count, size, inputs):
    """Compares so many programs, and prints what differs and how much was compared: whether all is as it must be."""
    counts, differences = collections.Counter(), []
    with tempfile.TemporaryDirectory() as folder, concurrent.futures.ThreadPoolExecutor(os.cpu_count()) as pool:
        paths = []
        for number, data in enumerate(inputs):
            paths.append(os.path.join(folder, f"input {number}"))
            with open(paths[-1], "wb") as file:
                file.write(data)

        def one(number, seed, text):
            with tempfile.TemporaryDirectory(dir=folder) as own:
                program = Program(slicer, seed, text, own)
                program.all(paths, number % COMPILED == 0)
            return program

        for done in pool.map(lambda made: one(made[0], *made[1]), enumerate(programs(first, count, size))):
            counts.update(done.counts)
            differences += done.differences
            print("".join(f"{told}\n" for told in done.differences), end="", flush=True)
    runs = count * len(inputs)
    print(f"programs {count}")
    for name, found in sorted(counts.items()):
        print(f"{name} {found}")
    print(f"runs {runs}, of which {counts['runs ended']} ended")
    print(f"differences {len(differences)}")
    return not differences and 2 * counts["runs ended"] >= runs
