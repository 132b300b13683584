"""Slices an example at every line, and compares the values at the line in the slice with those in the prepared text, both by gcc."""
import os
import re
import subprocess
import sys
import tempfile

from running import FLAGS, HERE, LINES, TOP, Differs, compiled, prepare, ran

SLICER = os.environ.get("SLICER") or os.path.join(TOP, ".built", "slicer")
QUICK = ["-std=c99", "-w", "-O0"]


def bytes_of(path):
    with open(path, "rb") as file:
        return file.read()


def probed(path, lines=()):
    """The program of a text with probes at lines."""
    made = path[:-2] + "_probed.c"
    words = [sys.executable, os.path.join(HERE, "probed.py"), path, *map(str, lines)]
    done = subprocess.run(words, stdout=subprocess.PIPE, stderr=subprocess.PIPE)
    if done.returncode:
        raise Differs(f"{path} can't be probed: {done.stderr.decode()[-500:]}")
    with open(made, "wb") as file:
        file.write(done.stdout)
    return compiled(made, QUICK)


def values(program, text):
    """The values that probes tell, by lines: the number of the statement among those of the line, and the value, in the order of the run."""
    done = subprocess.run([program], input=text, stdout=subprocess.PIPE, stderr=subprocess.PIPE, timeout=60)
    found = {}
    for line, rank, value in re.findall(rb"@ (\d+) (\d+) (-?\d+)\n", done.stderr):
        found.setdefault(int(line), []).append((int(rank), int(value)))
    return found


def check_example(path):
    """Checks one example; tells how many lines were sliced."""
    text, wanted = bytes_of(path + ".in"), bytes_of(path + ".out")
    with tempfile.TemporaryDirectory() as folder:
        out = os.path.join(folder, "prepared.c")
        status, told = prepare(path + ".c", out)
        if status:
            raise Differs(f"{path}.c is refused with {status}: {told}")
        original = os.path.join(folder, "original.c")
        with open(original, "wb") as file:
            file.write(bytes_of(path + ".c"))
        first, second = ran(compiled(original, FLAGS), text), ran(compiled(out, FLAGS), text)
        if first[0] != wanted or second != first:
            raise Differs(f"{path}: {first}, {second}, and {wanted} is wanted")
        words = [SLICER, "run", out, "--input", path + ".in"]
        done = subprocess.run(words, stdout=subprocess.PIPE, stderr=subprocess.PIPE)
        if done.stdout != wanted or done.returncode:
            raise Differs(f"{path}: the slicer's run gives {done.returncode}, {done.stderr}, {done.stdout[-300:]}")
        return check_lines_of(path, out, folder, text)


def check_lines_of(path, out, folder, text):
    numbers = LINES.of(out)
    all_values = values(probed(out), text)
    for line in numbers:
        check_slice(path, out, folder, text, line, all_values.get(line, []))
    return len(numbers)


def check_slice(path, out, folder, text, line, wanted):
    done = subprocess.run([SLICER, "slice", out, str(line)], stdout=subprocess.PIPE, stderr=subprocess.PIPE)
    if done.returncode:
        raise Differs(f"{path}: the slice at {line} is refused: {done.stderr.decode()}")
    made = os.path.join(folder, f"slice{line}.c")
    with open(made, "wb") as file:
        file.write(done.stdout)
    starts = [int(word) for word in re.match(rb"/\* slice \d+: ([\d ]+) \*/", done.stdout).group(1).split()]
    events = values(probed(made, starts), text).get(0, [])
    if events != wanted:
        raise Differs(f"{path}: other values at line {line}: {events[:20]} instead of {wanted[:20]}")
