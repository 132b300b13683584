"""Blocks, pointers and what may be done with them (ISO C99 6.5.6, 6.5.8, 6.5.9).

A pointer is None (null), or a block, a path to an array or a single object in it, and an index. A path is a tuple of member numbers
and element numbers.
"""
from dataclasses import dataclass, field
from typing import Any

from integers import Undefined
from tree import Array, Pointer, StructType


@dataclass(eq=False)
class Block:
    type: Any
    is_allocated: bool = False
    is_zero: bool = False
    is_live: bool = True
    cells: dict = field(default_factory=dict)


def type_at(block, path):
    """The type of the object at a path."""
    t = block.type
    for part in path:
        t = t.struct.members[part][1] if isinstance(t, StructType) else t.of
    return t


def length(pointer):
    """How many objects there are where a pointer points: those of the array, or one."""
    block, path, _ = pointer
    t = type_at(block, path)
    return t.length if isinstance(t, Array) else 1


def move(pointer, count):
    """The pointer so many objects further on."""
    if pointer is None:
        raise Undefined
    block, path, index = pointer
    if not 0 <= index + count <= length(pointer):
        raise Undefined
    return block, path, index + count


def designated(pointer):
    """The place of the object to which a pointer points."""
    if pointer is None or pointer[2] == length(pointer):
        raise Undefined
    block, path, index = pointer
    return (block, path + (index,)) if isinstance(type_at(block, path), Array) else (block, path)


def is_same_array(a, b):
    return a is not None and b is not None and a[0] is b[0] and a[1] == b[1]


def is_equal(a, b):
    """Whether two pointers are equal; one past an array and one to the start of another can't be told apart."""
    if a is None or b is None:
        return a is b
    if is_same_array(a, b):
        return a[2] == b[2]
    if (a[2] == length(a) and b[2] == 0) or (b[2] == length(b) and a[2] == 0):
        raise Undefined
    return False


def read(place):
    block, path = place
    if not block.is_live:
        raise Undefined
    if path in block.cells:
        return block.cells[path]
    if not block.is_zero:
        raise Undefined
    return None if isinstance(type_at(block, path), Pointer) else 0


def write(place, value):
    block, path = place
    if not block.is_live:
        raise Undefined
    block.cells[path] = value


def free(pointer):
    if pointer is None:
        return
    block, path, index = pointer
    if not (block.is_allocated and block.is_live and path == () and index == 0):
        raise Undefined
    block.is_live = False
