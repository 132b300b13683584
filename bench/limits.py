"""What benches that call the built program share: the program, and limits of the system under which it is called."""
import os
import resource

TOP = os.path.join(os.path.dirname(os.path.realpath(__file__)), "..")
SLICER = os.path.realpath(os.environ.get("SLICER", os.path.join(TOP, ".built", "slicer")))


def limited(stack=None, memory=None):
    """What a call does before its program begins: so many KiB of stack (`ulimit -s`) and of all its memory (`ulimit -v`), if given."""
    def limit():
        for which, kib in ((resource.RLIMIT_STACK, stack), (resource.RLIMIT_AS, memory)):
            if kib is not None:
                resource.setrlimit(which, (kib * 1024, kib * 1024))
    return limit
