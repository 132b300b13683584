"""Calls: of functions of the file, of those that the language has, and of those that become functions of the text."""
import re

from pycparser import c_ast

import library
from c_types import INT, UCHAR, Array, Int, Pointer, Struct, VOID, cells, decayed, innermost, promote, size
from faults import Refused
from formats import conversions
from names import Entry
from tree import Call, Declare, Heap, Invoke, Return, Var, X, const, fold, literal_bytes, name

INSTEAD = {
    "scanf": "getchar, and a loop that makes the number", "fprintf": "printf", "sprintf": "putchar", "snprintf": "putchar",
    "calloc": "malloc, and a loop that sets the elements", "realloc": "malloc, and a loop that copies the elements",
    "fgets": "a loop over getchar", "gets": "a loop over getchar", "fputs": "printf", "fputc": "putchar", "putc": "putchar",
    "getc": "getchar", "fgetc": "getchar", "fopen": "getchar and putchar", "assert": "an if", "abort": "a return of main",
    "sscanf": "getchar, and a loop that makes the number", "rand": "a function of your own", "time": "a number", "system": "nothing",
    "qsort": "a function of your own", "bsearch": "a function of your own", "strdup": "malloc and strcpy", "memset": "a loop",
    "perror": "printf", "ungetc": "a variable for the character", "fflush": "nothing", "getline": "a loop over getchar",
}


def called_name(node):
    """The name of the function that a call names, or None."""
    return node.name.name if isinstance(node, c_ast.FuncCall) and isinstance(node.name, c_ast.ID) else None


def without_cast(node):
    """What is cast, however often."""
    while isinstance(node, c_ast.Cast):
        node = node.expr
    return node


class Calls:
    """The part of the builder that makes calls."""

    def call(self, node, is_effect=False):
        """The call, with its arguments evaluated in front; an expression where the result isn't that of a call."""
        called = called_name(node)
        if called is None:
            raise Refused(node, "a call through a pointer: calls of functions by their names")
        found = self.find(called)
        args = node.args.exprs if node.args else []
        if isinstance(found, Entry):
            return self.call_of(node, found, args)
        if found is not None:
            raise Refused(node, found and f"a call of {called}, which is no function")
        own = getattr(self, "call_" + called, None)
        if own is not None:
            return own(node, args, is_effect)
        if called in library.FUNCTIONS:
            return self.call_of_text(node, called, args)
        if called in self.defined_functions:
            raise Refused(node, f"a call of {called} in front of its declaration: a prototype above")
        raise Refused(node, f"a call of {called}, which the file doesn't define: " + INSTEAD.get(called, "a function of your own"))

    def call_of(self, node, entry, args):
        entry.is_called = True
        if entry.name == "main":
            raise Refused(node, "a call of main: another function that main calls too")
        if len(args) != len(entry.type.params):
            raise Refused(node, f"a call of {entry.name} with {len(args)} arguments instead of {len(entry.type.params)}")
        steps = [lambda arg=arg, t=t: self.argument(arg, t) for arg, t in zip(args, entry.type.params)]
        values = self.in_order(steps)
        if not isinstance(entry.type.result, Struct):
            return Call(entry.name, values, entry.type.result)
        var = Var(self.fresh("t"), entry.type.result)
        self.emit(Declare(var))
        self.emit(Invoke(Call(entry.name, [X("address", [name(var)], Pointer(var.type)), *values], VOID)))
        return name(var)

    def argument(self, node, t):
        """An argument; a struct is copied, and passed by the pointer to its copy."""
        if not isinstance(t, Struct):
            if self.is_malloc(node):
                return self.temp(self.heap(node, t), t)
            return self.fitted(node, self.value(node), t)
        x = self.value(node)
        if x.type != t:
            raise Refused(node, "a struct of another type")
        return X("address", [self.kept_struct(x)], Pointer(t))

    # what the language has

    def wants(self, node, args, count):
        if len(args) != count:
            raise Refused(node, f"a call of {called_name(node)} with {len(args)} arguments instead of {count}")

    def call_getchar(self, node, args, is_effect):
        self.wants(node, args, 0)
        return Call("getchar", [], INT)

    def call_putchar(self, node, args, is_effect):
        self.wants(node, args, 1)
        x = self.wants_int(self.value(args[0]), args[0])
        if is_effect:
            return Call("putchar", [x], VOID)
        x = self.temp(x, x.type)
        self.emit(Invoke(Call("putchar", [x], VOID)))
        return X("cast", [x], UCHAR)

    def call_puts(self, node, args, is_effect):
        self.wants(node, args, 1)
        if not is_effect or not self.is_literal(args[0]):
            raise Refused(node, "puts of no literal, or its result: a loop over putchar")
        self.write(literal_bytes(args[0].value) + b"\n", [])
        return None

    def call_printf(self, node, args, is_effect):
        if not args or not self.is_literal(args[0]):
            raise Refused(node, "printf with a format that is no literal: a literal")
        if not is_effect:
            raise Refused(node, "the result of printf: printf as a statement")
        written, values, faults = conversions(literal_bytes(args[0].value), args[1:], self.is_loose, self.is_literal)
        for is_fault, words in faults:
            (self.faults.add if is_fault else self.faults.warn)(node, words)
        if any(is_fault for is_fault, _ in faults):
            return None
        made = self.in_order([lambda arg=arg: self.wants_int(self.value(arg), arg) for arg, _ in values])
        for x, (arg, wanted) in zip(made, values):
            if size(promote(x.type)) != wanted:
                longer = "a long argument: %ld, %lu or %lx" if wanted == 4 else "an int argument for %l..: %d, %u or %x"
                raise Refused(arg, f"in a format {longer}")
        self.write_format(written, made)
        return None

    def write(self, text, args):
        """Writes bytes that aren't a format."""
        self.write_format(text.split(b"\0")[0].replace(b"%", b"%%"), args)

    def write_format(self, written, args):
        """Writes by a format; bytes that no string of the language holds are written by putchar."""
        for piece in re.findall(rb"[\x07-\x0d\x20-\x7e]+|[^\x07-\x0d\x20-\x7e]", written) or [b""]:
            if piece and not 7 <= piece[0] <= 13 and not 32 <= piece[0] < 127:
                self.emit(Invoke(Call("putchar", [const(piece[0])], VOID)))
                continue
            count = len(re.findall(rb"%l?[dux]|%c", piece.replace(b"%%", b"")))
            self.emit(Invoke(Call("printf", args[:count], VOID, piece)))
            args = args[count:]

    @staticmethod
    def is_literal(node):
        return isinstance(node, c_ast.Constant) and node.type == "string"

    def call_free(self, node, args, is_effect):
        self.wants(node, args, 1)
        x = self.value(args[0])
        if not isinstance(decayed(x.type), Pointer) or not is_effect:
            raise Refused(node, "free of no pointer, or its result")
        return Call("free", [x], VOID)

    def call_exit(self, node, args, is_effect):
        self.wants(node, args, 1)
        if self.current is None or self.current.name != "main" or not is_effect:
            raise Refused(node, "exit outside main: a result that tells main to return")
        self.emit(Return(self.fitted(args[0], self.value(args[0]), INT)))
        return None

    # allocations

    def is_malloc(self, node):
        return called_name(without_cast(node)) == "malloc" and self.find("malloc") is None

    def call_malloc(self, node, args, is_effect):
        raise Refused(node, "malloc that isn't assigned to a pointer: a pointer that it is assigned to")

    def heap(self, node, t):
        """An allocation for a pointer of a type."""
        if isinstance(node, c_ast.Cast):
            cast = self.type_of(node.to_type)
            t = t if cast == Pointer(VOID) else cast if cast == t else self.wrong_cast(node)
        call = without_cast(node)
        args = call.args.exprs if call.args else []
        self.wants(call, args, 1)
        if not isinstance(t, Pointer) or t.to == VOID:
            raise Refused(node, "malloc for what is no pointer to objects")
        return Heap(innermost(t.to), self.count_of(args[0], t.to), t)

    def wrong_cast(self, node):
        raise Refused(node, "malloc cast to another type than that of the pointer")

    def count_of(self, node, of):
        """How many objects an amount is for; None where it is for one."""
        factors, rest = self.factors(node), []
        sizes = [f for f in factors if isinstance(f, c_ast.UnaryOp) and f.op == "sizeof" and self.size_of(f.expr) == size(of)]
        rest = [f for f in factors if not sizes or f is not sizes[0]]
        if not sizes and size(of) > 1:
            total = fold(self.value(node))
            if total is None or total % size(of):
                raise Refused(node, f"an amount of malloc without the size of what it is for: a count times sizeof, of {size(of)} bytes")
            return self.counted(const(total // size(of)), of)
        if not rest:
            return self.counted(None, of)
        values = self.in_order([lambda f=f: self.wants_int(self.value(f), f) for f in rest])
        count = values[0]
        for x in values[1:]:
            count = self.operator(node, "*", count, x)
        return self.counted(count, of)

    @staticmethod
    def counted(count, of):
        step = cells(of)
        if step == 1:
            return count
        return const(step) if count is None else X("binary", [count, const(step)], count.type, "*")

    def factors(self, node):
        if isinstance(node, c_ast.BinaryOp) and node.op == "*":
            return self.factors(node.left) + self.factors(node.right)
        if isinstance(node, c_ast.Cast) and isinstance(without_cast(node), c_ast.UnaryOp) and without_cast(node).op == "sizeof":
            return [without_cast(node)]
        return [node]

    # functions of the text

    def call_of_text(self, node, called, args):
        """A call of a function that is written into the text, for the type on which it works."""
        form = library.FUNCTIONS[called]
        if form.header not in [header for header, _ in self.included]:
            raise Refused(node, f"{called} without #include <{form.header}>")
        self.wants(node, args, len(form.params))
        values = self.in_order([lambda arg=arg: self.first_cell(self.value(arg)) for arg in args])
        t = self.type_worked_on(node, form, values)
        params = [library.param_type(p, t) for p in form.params]
        values = [self.fitted(arg, x, p) for arg, x, p in zip(args, values, params)]
        if form.is_zeroing and t not in library.BYTES and fold(values[1]) not in (0, None) and not isinstance(t, Int):
            raise Refused(node, f"{called} with another value than 0 over pointers or structs: a loop")
        result = self.text_function(called, t)
        return Call(result, values, library.param_type(form.result, t))

    def first_cell(self, x):
        """A pointer to arrays as one to their first element."""
        t = decayed(x.type)
        if not isinstance(t, Pointer) or not isinstance(t.to, Array):
            return x
        row = self.row_of(x, const(0), t.to)
        return X("row", row.parts, Pointer(innermost(t.to)))

    def type_worked_on(self, node, form, values):
        if "T*" not in form.params:
            return None
        x = values[form.params.index("T*")]
        t = decayed(x.type)
        if not isinstance(t, Pointer) or t.to == VOID:
            raise Refused(node, "an argument that is no pointer to objects")
        if form.is_for_bytes and t.to not in library.BYTES:
            raise Refused(node, "an argument that is no pointer to characters")
        return innermost(t.to)

    def text_function(self, called, t):
        """The name of a function of the text; it is put in front of the function at hand where it isn't there yet."""
        if (called, t) not in self.text_functions:
            form = library.FUNCTIONS[called]
            needed = {other: self.text_function(other, t) for other in form.needs}
            self.text_functions[called, t] = self.fresh(called)
            self.front.append(("text", library.Text(form, t, self.text_functions[called, t], needed)))
        return self.text_functions[called, t]
