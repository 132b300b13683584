"""Formats of printf: the conversions of the language, and what is told of the others."""
import re

from tree import literal_bytes

CONVERSION = re.compile(rb"%([-+ #0]*)(\d+|\*)?(\.(?:\d+|\*)?)?(hh|h|ll|l|j|z|t|L)?(.)", re.S)
WIDTHS = {b"": 4, b"l": 8, b"ll": 8}
KNOWN = b"dux"
INSTEAD = {b"X": "%x", b"i": "%d", b"p": "no address", b"o": "%x", b"f": "an integer", b"s": "a loop over putchar, or a literal"}


def conversions(text, args, is_loose, is_literal):
    """A format in the language's form, its arguments each with its bytes, and what is wrong (and whether that refuses it)."""
    made, values, faults, at = b"", [], [], 0
    args = list(args)
    text = text.split(b"\0")[0]
    while at < len(text):
        if text[at:at + 1] != b"%":
            made += text[at:at + 1]
            at += 1
            continue
        found = CONVERSION.match(text, at)
        if not found:
            faults.append((True, "a format that ends within a conversion: %% for a percent sign"))
            break
        at = found.end()
        piece, fault = convert(found, args, values, is_literal)
        if any(found.group(1, 2, 3)) and piece is not None and found.group(5) != b"%":
            dropped = "a width, precision or flag of a conversion"
            faults.append((not is_loose, f"{dropped}: the conversion alone" + ("" if is_loose else " (--loose drops it)")))
        if fault:
            faults.append((True, fault))
        made += piece or b""
    if args and not faults:
        faults.append((True, "more arguments than conversions: as many as there are conversions"))
    return made, values, faults


def convert(found, args, values, is_literal):
    """One conversion in the language's form, or what is told of it; it takes its argument."""
    length, letter = found.group(4) or b"", found.group(5)
    if letter == b"%":
        return b"%%", None
    if b"*" in (found.group(2) or b"", (found.group(3) or b"")[1:]):
        return None, "a width that is an argument: the conversion alone"
    if not args:
        return None, "fewer arguments than conversions: one for each"
    arg = args.pop(0)
    if letter == b"s" and not length and is_literal(arg):
        return literal_bytes(arg.value).split(b"\0")[0].replace(b"%", b"%%"), None
    letter = b"d" if letter == b"i" else letter
    if letter == b"c" and not length:
        values.append((arg, 4))
        return b"%c", None
    if letter in (b"d", b"u", b"x") and length in WIDTHS:
        values.append((arg, WIDTHS[length]))
        return b"%" + (b"l" if length else b"") + letter, None
    written = (b"%" + length + letter).decode("latin-1")
    instead = INSTEAD.get(letter, "%d, %u, %x, %ld, %lu, %lx, %c or %%")
    if length in (b"z", b"j", b"t"):
        instead = "%lu, or %ld"
    return None, f"the conversion {written}: {instead}"


def with_strings(written):
    """The spelling of bytes as a string literal of the language."""
    names = {10: "\\n", 9: "\\t", 13: "\\r", 7: "\\a", 8: "\\b", 12: "\\f", 11: "\\v", 92: "\\\\", 34: '\\"'}
    spelled, last = "", 0
    for byte in written:
        spelled += names.get(byte) or ("\\?" if byte == 63 and last == 63 else chr(byte))
        last = byte
    return '"' + spelled + '"'
