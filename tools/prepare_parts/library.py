"""Functions of the library as functions of the text, each in the language and on one line.

In a form, `$T` stands for the type on which it works, `$f` for the function's name, other names with `$` for parameters and variables,
which get names that stand nowhere in the file, and `$other` for a function that it needs.
"""
import re
from dataclasses import dataclass, field
from typing import Any, Dict, List, Tuple

from c_types import CHAR, INT, LONG, UCHAR, ULONG, VOID, Int, Pointer, Struct, size

BYTES = (CHAR, UCHAR)


@dataclass
class Form:
    """A function: its header, the words of its types (T* for a pointer to the type), its text, and the functions that it needs."""
    header: str
    result: str
    params: Tuple
    text: str
    needs: Tuple = ()
    is_for_bytes: bool = True
    is_zeroing: bool = False


@dataclass(eq=False)
class Text:
    """A function of the text: its form, the type, its name, and the names of the functions that it needs."""
    form: Form
    type: Any
    name: str
    needed: Dict = field(default_factory=dict)


def param_type(words, t):
    """The type of a parameter or a result."""
    if words == "T*":
        return Pointer(t)
    return {"int": INT, "long": LONG, "unsigned long": ULONG, "void": VOID}[words]


def is_class(condition):
    """A function of <ctype.h>, by what it returns."""
    return Form("ctype.h", "int", ("int",), f"int $f(int $c) {{ return {condition}; }}")


FUNCTIONS = {
    "isdigit": is_class("$c >= '0' && $c <= '9'"),
    "isupper": is_class("$c >= 'A' && $c <= 'Z'"),
    "islower": is_class("$c >= 'a' && $c <= 'z'"),
    "isalpha": is_class("($c >= 'A' && $c <= 'Z') || ($c >= 'a' && $c <= 'z')"),
    "isalnum": is_class("($c >= '0' && $c <= '9') || ($c >= 'A' && $c <= 'Z') || ($c >= 'a' && $c <= 'z')"),
    "isxdigit": is_class("($c >= '0' && $c <= '9') || ($c >= 'A' && $c <= 'F') || ($c >= 'a' && $c <= 'f')"),
    "isspace": is_class("$c == ' ' || ($c >= 9 && $c <= 13)"),
    "isblank": is_class("$c == ' ' || $c == 9"),
    "iscntrl": is_class("($c >= 0 && $c < 32) || $c == 127"),
    "isprint": is_class("$c >= 32 && $c < 127"),
    "isgraph": is_class("$c > 32 && $c < 127"),
    "ispunct": is_class("($c > 32 && $c < '0') || ($c > '9' && $c < 'A') || ($c > 'Z' && $c < 'a') || ($c > 'z' && $c < 127)"),
    "toupper": is_class("$c >= 'a' && $c <= 'z' ? $c - 32 : $c"),
    "tolower": is_class("$c >= 'A' && $c <= 'Z' ? $c + 32 : $c"),
    "abs": Form("stdlib.h", "int", ("int",), "int $f(int $n) { return $n < 0 ? -$n : $n; }"),
    "labs": Form("stdlib.h", "long", ("long",), "long $f(long $n) { return $n < 0 ? -$n : $n; }"),
    "llabs": Form("stdlib.h", "long", ("long",), "long $f(long $n) { return $n < 0 ? -$n : $n; }"),
    "atol": Form("stdlib.h", "long", ("T*",),
                 "long $f($T *$s) { long $n = 0; int $m = 0; while (*$s == ' ' || (*$s >= 9 && *$s <= 13)) { $s++; } "
                 "$m = *$s == '-'; if (*$s == '-' || *$s == '+') { $s++; } "
                 "while (*$s >= '0' && *$s <= '9') { $n = $n * 10 - (*$s - '0'); $s++; } return $m ? $n : -$n; }"),
    "atoi": Form("stdlib.h", "int", ("T*",), "int $f($T *$s) { long $n; $n = $atol($s); return $n; }", ("atol",)),
    "strlen": Form("string.h", "unsigned long", ("T*",),
                   "unsigned long $f($T *$s) { unsigned long $n = 0; while ($s[$n]) { $n++; } return $n; }"),
    "strcmp": Form("string.h", "int", ("T*", "T*"),
                   "int $f($T *$s, $T *$r) { while (*$s && *$s == *$r) { $s++; $r++; } "
                   "return *$s == *$r ? 0 : (unsigned char)*$s < (unsigned char)*$r ? -1 : 1; }"),
    "strncmp": Form("string.h", "int", ("T*", "T*", "unsigned long"),
                    "int $f($T *$s, $T *$r, unsigned long $n) { while ($n > 0 && *$s && *$s == *$r) { $s++; $r++; $n--; } "
                    "return $n == 0 || *$s == *$r ? 0 : (unsigned char)*$s < (unsigned char)*$r ? -1 : 1; }"),
    "strcpy": Form("string.h", "T*", ("T*", "T*"),
                   "$T *$f($T *$s, $T *$r) { unsigned long $n = 0; while ($r[$n]) { $s[$n] = $r[$n]; $n++; } $s[$n] = 0; return $s; }"),
    "strncpy": Form("string.h", "T*", ("T*", "T*", "unsigned long"),
                    "$T *$f($T *$s, $T *$r, unsigned long $n) { unsigned long $k = 0; "
                    "while ($k < $n && $r[$k]) { $s[$k] = $r[$k]; $k++; } while ($k < $n) { $s[$k] = 0; $k++; } return $s; }"),
    "strcat": Form("string.h", "T*", ("T*", "T*"),
                   "$T *$f($T *$s, $T *$r) { unsigned long $n; $n = $strlen($s); $strcpy($s + $n, $r); return $s; }",
                   ("strlen", "strcpy")),
    "strncat": Form("string.h", "T*", ("T*", "T*", "unsigned long"),
                    "$T *$f($T *$s, $T *$r, unsigned long $n) { unsigned long $k; unsigned long $i = 0; $k = $strlen($s); "
                    "while ($i < $n && $r[$i]) { $s[$k + $i] = $r[$i]; $i++; } $s[$k + $i] = 0; return $s; }", ("strlen",)),
    "strchr": Form("string.h", "T*", ("T*", "int"),
                   "$T *$f($T *$s, int $c) { while (*$s && *$s != ($T)$c) { $s++; } return *$s == ($T)$c ? $s : 0; }"),
    "strrchr": Form("string.h", "T*", ("T*", "int"),
                    "$T *$f($T *$s, int $c) { $T *$r = 0; while (*$s) { if (*$s == ($T)$c) { $r = $s; } $s++; } "
                    "return *$s == ($T)$c ? $s : $r; }"),
    "strspn": Form("string.h", "unsigned long", ("T*", "T*"),
                   "unsigned long $f($T *$s, $T *$r) { unsigned long $n = 0; unsigned long $k = 0; while ($s[$n] && $r[$k]) { "
                   "if ($r[$k] == $s[$n]) { $n++; $k = 0; } else { $k++; } } return $n; }"),
    "strcspn": Form("string.h", "unsigned long", ("T*", "T*"),
                    "unsigned long $f($T *$s, $T *$r) { unsigned long $n = 0; unsigned long $k = 0; while ($s[$n] && $s[$n] != $r[$k]) { "
                    "if ($r[$k]) { $k++; } else { $n++; $k = 0; } } return $n; }"),
    "strstr": Form("string.h", "T*", ("T*", "T*"),
                   "$T *$f($T *$s, $T *$r) { unsigned long $n = 0; while ($r[$n] && *$s) { if ($s[$n] == $r[$n]) { $n++; } "
                   "else { $s++; $n = 0; } } return $r[$n] ? 0 : $s; }"),
    "memset": Form("string.h", "T*", ("T*", "int", "unsigned long"), "", (), False, True),
    "memcpy": Form("string.h", "T*", ("T*", "T*", "unsigned long"),
                   "$T *$f($T *$s, $T *$r, unsigned long $n) { unsigned long $k = 0; while ($k < $n / $size) { "
                   "$s[$k] = $r[$k]; $k++; } return $s; }", (), False),
    "memmove": Form("string.h", "T*", ("T*", "T*", "unsigned long"),
                    "$T *$f($T *$s, $T *$r, unsigned long $n) { unsigned long $k = 0; $T *$h = malloc(($n / $size + 1) * sizeof($T)); "
                    "while ($k < $n / $size) { $h[$k] = $r[$k]; $k++; } while ($k > 0) { $k--; $s[$k] = $h[$k]; } free($h); return $s; }",
                    (), False),
    "memcmp": Form("string.h", "int", ("T*", "T*", "unsigned long"),
                   "int $f($T *$s, $T *$r, unsigned long $n) { while ($n > 1 && *$s == *$r) { $s++; $r++; $n--; } "
                   "return $n == 0 || *$s == *$r ? 0 : (unsigned char)*$s < (unsigned char)*$r ? -1 : 1; }"),
    "memchr": Form("string.h", "T*", ("T*", "int", "unsigned long"),
                   "$T *$f($T *$s, int $c, unsigned long $n) { while ($n > 0 && *$s != ($T)$c) { $s++; $n--; } return $n > 0 ? $s : 0; }"),
}


def struct_copy(left, right, t, fresh) -> List[str]:
    """The assignments that copy a struct or an array in one, from one place to another; `right` is None for zero."""
    if isinstance(t, Struct):
        found = []
        for member, of in t.members:
            found += struct_copy(f"{left}.{member}", right and f"{right}.{member}", of, fresh)
        return found
    if isinstance(t, (Int, Pointer)):
        return [f"{left} = {right or '0'};"]
    index = fresh("i")
    inner = struct_copy(f"{left}[{index}]", right and f"{right}[{index}]", t.of, fresh)
    return [f"int {index} = 0;", f"while ({index} < {t.length}) {{", *inner, f"{index}++;", "}"]


def memset_form(t):
    """memset over elements of a type: bytes, the same byte in each of an integer, or 0."""
    if isinstance(t, Int) and size(t) > 1:
        ones = sum(1 << (8 * k) for k in range(size(t)))
        value = f"(unsigned char)$c * {ones}ul"
    elif isinstance(t, Int):
        value = "$c != 0" if t.name == "_Bool" else "$c"
    else:
        value = "0"
    return ("$T *$f($T *$s, int $c, unsigned long $n) { unsigned long $k = 0; while ($k < $n / $size) { "
            f"$s[$k] = {value}; $k++; }} return $s; }}")


def written(text, type_words, fresh):
    """The function as it stands in the text; `type_words` gives the words of a type."""
    form = text.form
    words = form.text or memset_form(text.type)
    if isinstance(text.type, Struct):
        right = "$r[$k]" if "$r" in words else None
        for left, source in (("$s[$k]", right), ("$h[$k]", right), ("$s[$k]", "$h[$k]")):
            plain = f"{left} = {source or '0'};"
            if plain in words:
                words = words.replace(plain, " ".join(struct_copy(left, source, text.type, lambda stem: fresh(stem))))
    names = {"f": text.name, **text.needed}
    if text.type is not None:
        names.update({"T": type_words(text.type), "size": str(size(text.type)) + "ul"})
        words = words.replace("$T *", names["T"] + (" *" if not names["T"].endswith("*") else "*"))

    def named(found):
        key = found.group(1)
        if key not in names:
            names[key] = fresh(key)
        return names[key]

    return re.sub(r"\$([A-Za-z]+)", named, words)
