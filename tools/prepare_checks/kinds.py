"""The kinds of checks of tools/prepare; each tells what is wrong, and returns how much that is."""
import os
import random
import re
import shutil
import subprocess
import sys
import tempfile
from concurrent.futures import ThreadPoolExecutor

from running import HERE, LINES, TOP, Differs, compiled, prepare, ran, same

sys.path.insert(0, os.path.join(TOP, "tools", "prepare_parts"))

from generating import ordinary_program
from original_lines import lines_with_statements

INPUTS = [b"", b"hello world 123\nfoo x bar\n", b"9\n\t.;a Q 42 7\nx"]
SAFE_MATH = "/usr/include/csmith/safe_math.h"
CSMITH = ("csmith --no-unions --no-bitfields --no-volatiles --no-packed-struct --no-argc --concise --max-funcs 5 --max-block-depth 4 "
          "--max-pointer-depth 2").split()

# csmith jumps by goto, and takes pointers to int for pointers to unsigned int; both are refused.
LESS = [[], ["--no-jumps"], ["--no-jumps", "--no-pointers"], ["--no-jumps", "--no-pointers", "--no-structs"]]


def check_lines(path, out):
    missing = lines_with_statements(path) - set(LINES.of(out))
    if missing:
        raise Differs(f"{path}: no statement of the prepared text on the lines {sorted(missing)}")


def check_program(path, inputs, seconds=20, tool=None):
    """Prepares a program, and compares the runs and the lines; tells on how many inputs it ended."""
    out = path[:-2] + "_prepared.c"
    status, told = prepare(path, out, tool)
    if status:
        raise Differs(f"{path} is refused with {status}: {told}")
    check_lines(path, out)
    return same(path, out, inputs, seconds)


def all_of(check, parts):
    """Does a check for each part, several at a time; gives what each returned, or what is wrong of it."""
    def tried(part):
        try:
            return check(part)
        except Differs as fault:
            return fault

    with ThreadPoolExecutor(os.cpu_count()) as pool:
        return list(pool.map(tried, parts))


def told(kind, found):
    """Tells what is wrong, and counts it."""
    faults = [fault for fault in found if isinstance(fault, Differs)]
    for fault in faults:
        print(f"check_prepare: {kind}: {fault}")
    print(f"check_prepare: {kind}: {len(found)} done, {len(faults)} wrong", flush=True)
    return len(faults)


def row_texts():
    """The small texts: their names, for a refused one what has to be told, and for one whose order C leaves open its output."""
    with open(os.path.join(HERE, "rows.txt")) as file:
        for part in file.read().split("=== ")[1:]:
            name, text = part.split("\n", 1)
            text, _, refused = text.partition("--- refused\n")
            text, _, output = text.partition("--- output\n")
            yield name, text, refused.split("\n")[:-1], output


def check_row(path, refused, output, tool=None):
    """Checks a small text by the tool, or by a copy of it."""
    if output:
        check_output(path, output, tool)
        return
    if not refused:
        if not check_program(path, INPUTS, 20, tool):
            raise Differs(f"{path} has an undefined act or doesn't end")
        return
    status, words = prepare(path, path + ".out", tool)
    if status != 1 or os.path.exists(path + ".out"):
        raise Differs(f"{path} has to be refused: {status}, {words}")
    for line in refused:
        if line not in words:
            raise Differs(f"{path}: {line!r} isn't told, but: {words}")


def check_output(path, output, tool):
    """The prepared text has an output that was typed by hand."""
    out = path + "_prepared.c"
    status, words = prepare(path, out, tool)
    found = ran(compiled(out), b"")[0].decode() if status == 0 else words
    if found != output:
        raise Differs(f"{path}: {found!r} instead of {output!r}")


def in_folder(name, text, check):
    """Does a check with a file of its own."""
    with tempfile.TemporaryDirectory() as folder:
        path = os.path.join(folder, name + ".c")
        with open(path, "w") as file:
            file.write(text)
        return check(path)


def rows():
    def check(row):
        try:
            in_folder("row", row[1], lambda path: check_row(path, row[2], row[3]))
        except Differs as fault:
            raise Differs(f"{row[0]}: {fault}") from None

    return told("rows", all_of(check, list(row_texts())))


def random_programs(most=500, first=1):
    """Programs of the generator, each on two inputs."""
    def check(seed):
        return in_folder(f"random{seed}", ordinary_program(random.Random(seed)), lambda path: check_program(path, INPUTS[1:], 10))

    found = all_of(check, range(first, first + most))
    print(f"check_prepare: random: {found.count(0)} with an undefined act or without an end in time")
    return told("random", found)


def csmith(most=200, first=1):
    """Programs of csmith: the same checksum, or refused with a place."""
    if not shutil.which("csmith") or not os.path.exists(SAFE_MATH):
        print("check_prepare: csmith isn't there: apt install csmith libcsmith-dev")
        return 0
    refused = {}

    def check(seed):
        with tempfile.TemporaryDirectory() as folder:
            path = csmith_program(folder, seed)
            try:
                return check_program(path, [b""], 10)
            except Differs as fault:
                place = re.search(r"is refused with 1: \S+:\d+:\d+: error: ([^:\n]*)", str(fault))
                if not place:
                    raise
                refused[place.group(1)] = refused.get(place.group(1), 0) + 1
                return 1

    found = all_of(check, range(first, first + most))
    print(f"check_prepare: csmith: {sum(refused.values())} refused with a place, {found.count(0)} without an end in time")
    for words, count in sorted(refused.items(), key=lambda part: -part[1]):
        print(f"    {count} {words}")
    return told("csmith", found)


def csmith_program(folder, seed):
    with open(SAFE_MATH) as file:
        safe = file.read()
    with open(os.path.join(folder, "safe_math_integers.h"), "w") as file:
        file.write(safe[:safe.index("STATIC float")] + "\n#endif\n#endif\n")
    shutil.copy(os.path.join(HERE, "csmith.h"), folder)
    made = subprocess.run([*CSMITH, "--seed", str(seed), *LESS[seed % len(LESS)]], stdout=subprocess.PIPE, check=True, cwd=folder)
    path = os.path.join(folder, f"csmith{seed}.c")
    with open(path, "wb") as file:
        file.write(b"#include <stdio.h>\n" + made.stdout)
    return path


def examples():
    from sliced import check_example
    folder = os.path.join(TOP, "examples", "ordinary")
    names = sorted(name[:-2] for name in os.listdir(folder) if name.endswith(".c"))
    found = all_of(lambda name: check_example(os.path.join(folder, name)), names)
    print(f"check_prepare: examples: {sum(count for count in found if isinstance(count, int))} slices")
    return told("examples", found)


def planted():
    from planting import PLANTS, is_found
    texts = list(row_texts())

    def check(plant):
        if not is_found(plant, texts):
            raise Differs(f"nothing finds the planted mistake: {plant[0]}")

    return told("planted", all_of(check, PLANTS))


KINDS = {"rows": rows, "examples": examples, "random": random_programs, "csmith": csmith, "planted": planted}
