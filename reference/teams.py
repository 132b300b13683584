"""Slices of many lines by teams against those of one line each, by the built slicer alone: what `compare --teams` does.

Each line of a random program is sliced by a call of its own. The lines on which a statement starts are then sliced together, 64 at a
time, by teams of several sizes: each call must write the texts of its lines, one behind another in their order.
"""
import collections
import concurrent.futures
import os
import subprocess
import tempfile

TEAMS = [1, 4, 16]
MOST_CRITERIA = 64
SECONDS = 60
NO_START = 1


def slice_of(slicer, path, lines, workers):
    """The status of a call and what it wrote."""
    words = [slicer, "slice", path, *map(str, lines), "--workers", str(workers)]
    made = subprocess.run(words, capture_output=True, timeout=SECONDS, check=False)
    return made.returncode, made.stdout


def texts_of(slicer, path, last):
    """The lines up to the last one on which a statement starts, each with its slice."""
    ended = ((line, slice_of(slicer, path, [line], 1)) for line in range(1, last + 1))
    return [(line, text if code == 0 else None) for line, (code, text) in ended if code != NO_START]


def compared(slicer, name, path, last):
    """What is counted for a program, and what differs."""
    counts, differences = collections.Counter(programs=1), []
    texts = texts_of(slicer, path, last)
    for line, text in texts:
        if text is None:
            differences.append(f"{name} line {line}: there is no slice")
    for first in range(0, len(texts), MOST_CRITERIA):
        some = texts[first:first + MOST_CRITERIA]
        wanted = (0, b"".join(text or b"" for _, text in some))
        for workers in TEAMS:
            counts[f"slices by {workers}"] += len(some)
            if slice_of(slicer, path, [line for line, _ in some], workers) != wanted:
                differences.append(f"{name} lines {some[0][0]} to {some[-1][0]}: {workers} workers write something else")
    return counts, differences


def compare_teams(slicer, programs):
    """Compares the programs, which are named texts, and prints what differs and how much was compared: whether all is as it must be."""
    counts, differences = collections.Counter(), []
    with tempfile.TemporaryDirectory() as folder, concurrent.futures.ThreadPoolExecutor(os.cpu_count()) as pool:

        def one(named):
            name, text = named
            path = os.path.join(folder, f"{name}.c")
            with open(path, "w") as file:
                file.write(text)
            return compared(slicer, name, path, text.count("\n"))

        for found, told in pool.map(one, programs):
            counts.update(found)
            differences += told
            print("".join(f"{line}\n" for line in told), end="", flush=True)
    for name, found in sorted(counts.items()):
        print(f"{name} {found}")
    print(f"differences {len(differences)}")
    return not differences
