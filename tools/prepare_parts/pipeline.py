"""The passes one after another: from a file of ordinary C to a text of the language."""
import re
import subprocess
import sys

from faults import Faults, Unable

try:
    from pycparser import c_parser
except ImportError:
    raise Unable(["prepare: there is no pycparser, which reads C99: apt install python3-pycparser, or pip install pycparser"], 70) from None

from control import Control
from declarations import Item
from expressions import NeedsRows
from preprocess import preprocess
from printing import Printer
from refusals import refusals
from statements import Builder
from tree import X

LONGEST = 1048576
TOKENS = re.compile(r"\"(?:[^\"\\\n]|\\.)*\"|'(?:[^'\\\n]|\\.)*'|[{}]|\n")
NOTE = ("/* Made of {name} by tools/prepare: operands, arguments and what stands on both sides of an assignment are evaluated from left to "
        "right. Nothing of this step is proved. */")


def ends_of(text):
    """The line on which each brace is closed, by the line and the column of the opening one."""
    found, open_ones, line, start = {}, [], 1, 0
    for token in TOKENS.finditer(text):
        word = token.group()
        if word == "\n":
            line, start = line + 1, token.end()
        elif word == "{":
            open_ones.append((line, token.start() - start + 1))
        elif word == "}" and open_ones:
            found[open_ones.pop()] = line
    return found


def parsed(source):
    """The tree of a source, or what the parser tells with the place in the file."""
    try:
        return c_parser.CParser().parse(source.text, "")
    except Exception as fault:
        told = re.match(r":?(\d+):(?:(\d+):)? ?(.*)", str(fault), re.S)
        if not told:
            raise Unable(compiler_faults(source.main) or [f"{source.main}:1:1: error: no C99{fault}"], 1) from None
        file, line = source.origin(int(told.group(1)))
        raise Unable([f"{file}:{line}:{told.group(2) or 1}: error: no C99: {told.group(3)}"], 1) from None


def compiler_faults(path):
    """What the compiler tells of a file, where the parser tells no place."""
    done = subprocess.run(["cc", "-std=c99", "-fsyntax-only", path], stdout=subprocess.DEVNULL, stderr=subprocess.PIPE)
    return [line for line in done.stderr.decode("latin-1").split("\n") if ": error: " in line]


def prepared(path, defines=(), folders=(), is_loose=False):
    """The text of the language, and the warnings; Unable where there is none."""
    sys.setrecursionlimit(100000)
    source = preprocess(path, defines, folders)
    tree = parsed(source)
    options = {"ends": ends_of(source.text), "is_loose": is_loose, "words": set(re.findall(r"[A-Za-z_]\w*", source.text))}
    try:
        faults, builder = built(source, tree, options, False)
    except NeedsRows:
        faults, builder = built(source, tree, options, True)
    if faults.count or source.faults:
        raise Unable(source.faults + faults.lines(), 1)
    page = laid_out(builder, source)
    if page.late:
        places = sorted(set(page.late))
        raise Unable([f"{path}:{line}:1: error: a statement that can't stand on its line: its parts in the order of the lines"
                      for line in places], 1)
    text = page.text()
    if len(text) > LONGEST:
        raise Unable([f"{path}:1:1: error: the prepared text is longer than {LONGEST} bytes"], 1)
    return text, faults.lines()


def built(source, tree, options, is_flat):
    faults = Faults(source)
    refusals(tree, faults)
    builder = Builder(source, tree, faults, options, is_flat)
    builder.build()
    return faults, builder


def laid_out(builder, source):
    items = ordered(builder)
    control = Control(builder.fresh)
    for item in items:
        if item.kind == "function":
            control.function(item.what)
            if item.what.entry.name == "main":
                item.what.body[:0] = builder.main_start
    printer = Printer(builder, builder.fresh)
    printer.name_globals(items)
    printer.page.put(NOTE.format(name=re.sub(r"[^ -~]|\*/", "?", source.main.split("/")[-1])))
    for item in items:
        printer.item(item)
    return printer.page


def ordered(builder):
    """The items by their lines; what main's first statements name stands in front of it."""
    items = sorted(builder.items, key=lambda item: item.line if item.kind == "include" else item.line + 0.5)
    at = next((n for n, item in enumerate(items) if item.kind == "function" and item.what.entry.name == "main"), len(items))
    line = items[at].line if at < len(items) else 1
    wanted = {part.word for s in builder.main_start for part in names_of(s)}
    late = [item for item in items[at:] if item.kind == "global" and item.what in wanted]
    strings = [Item(part[0], part[1], line, part[2]) for part in builder.strings]
    for item in late:
        item.line = line
    items = items[:at] + strings + late + [item for item in items[at:] if item not in late]
    return items


def names_of(s):
    """The variables that an assignment names."""
    found, rest = [], [s.place, s.value]
    while rest:
        x = rest.pop()
        if isinstance(x, X):
            found += [x] if x.kind == "name" else []
            rest += x.parts
    return found
