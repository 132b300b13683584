"""Compiles and runs programs, and prepares them: what all checks of tools/prepare share."""
import os
import subprocess
import sys
import threading

HERE = os.path.dirname(os.path.realpath(__file__))
TOP = os.path.join(HERE, "..", "..")
PREPARE = os.path.join(TOP, "tools", "prepare")
FLAGS = ["-std=c99", "-w", "-O0", "-fno-builtin", "-fsanitize=address,undefined", "-fno-sanitize-recover=all"]
ENVIRONMENT = {**os.environ, "ASAN_OPTIONS": "detect_leaks=0"}


class Differs(Exception):
    """What is wrong of a program."""


class Lines:
    """A process that tells on which lines of a text statements start."""

    def __init__(self):
        self.lock = threading.Lock()
        self.process = None

    def of(self, path):
        with self.lock:
            if self.process is None:
                words = [sys.executable, os.path.join(HERE, "probed.py"), "--lines"]
                self.process = subprocess.Popen(words, stdin=subprocess.PIPE, stdout=subprocess.PIPE, universal_newlines=True)
            self.process.stdin.write(path + "\n")
            self.process.stdin.flush()
            told = self.process.stdout.readline()
        if told.startswith("!"):
            raise Differs(f"{path} isn't accepted by the second implementation: {told[2:]}")
        return [int(word) for word in told.split()]


LINES = Lines()


def compiled(path, flags=FLAGS):
    """The program that gcc makes of a file, beside it."""
    program = path[:-2] + ".bin"
    done = subprocess.run(["gcc", *flags, "-o", program, path], stdout=subprocess.PIPE, stderr=subprocess.STDOUT)
    if done.returncode:
        raise Differs(f"gcc refuses {path}\n{done.stdout.decode(errors='replace')[:2000]}")
    return program


def ran(program, text, seconds=20):
    """The output and the status of a run on an input; what the sanitizers tell is a fault."""
    try:
        done = subprocess.run([program], input=text, stdout=subprocess.PIPE, stderr=subprocess.PIPE, timeout=seconds, env=ENVIRONMENT)
    except subprocess.TimeoutExpired:
        return b"", "too long"
    if b"Sanitizer" in done.stderr or b"runtime error" in done.stderr:
        return done.stderr, "undefined"
    return done.stdout, done.returncode


def prepare(path, out, tool=None):
    """The status of tools/prepare, or of a copy of it, and what it told."""
    done = subprocess.run([tool or PREPARE, path, "-o", out], stdout=subprocess.PIPE, stderr=subprocess.PIPE)
    return done.returncode, done.stderr.decode(errors="replace")


def same(path, out, inputs, seconds=20):
    """Compares the runs of a program and of its prepared text on inputs; tells how many had an end."""
    first, second = compiled(path), compiled(out)
    ended = 0
    for text in inputs:
        wanted, status = ran(first, text, seconds)
        if status in ("too long", "undefined"):
            continue
        ended += 1
        found, code = ran(second, text, 5 * seconds)
        if (found, code) != (wanted, status):
            raise Differs(f"{path} ends with {status}, {wanted[-300:]!r}\n{out} with {code}, {found[-1500:]!r}")
    return ended
