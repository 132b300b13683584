"""Mistakes planted in a copy of the tool: a check has to find each."""
import os
import shutil
import tempfile

from running import TOP, Differs

# What is wrong, the file, its text, the text in its place, and the beginning of the name of the small text that finds it.
PLANTS = [
    ("an index evaluated twice", "expressions.py", "            old = self.temp(place, decayed(place.type))\n",
     "            self.bump_place(node, place)\n            old = self.temp(place, decayed(place.type))\n", "side effects"),
    ("&& evaluated whole", "expressions.py", "        self.emit(If(a if is_and else negated(a), inner))\n        return result",
     "        self.out += inner\n        return result", "and, or"),
    ("|| as &&", "expressions.py", "If(a if is_and else negated(a), inner)", "If(a, inner)", "and, or"),
    ("both branches of a choice", "expressions.py", "        self.emit(If(test, *branches))\n",
     "        self.out += branches[0] + branches[1]\n", "and, or"),
    ("a continue that skips the step", "control.py", "        stops = flags - {frame.skip}\n", "        stops = set(flags)\n",
     "break and continue"),
    ("a step behind a break", "control.py", "[self.runs(stops), value, old]", "[self.runs(stops), value, value]", "break and continue"),
    ("a test that forgets the return", "control.py", "test = both(self.runs(stops), s.test) or const(1)",
     "test = both(self.runs(stops - {self.done}), s.test) or const(1)", "return anywhere"),
    ("what stands behind a return", "control.py", "                made.append(If(self.runs(found), inner))\n",
     "                made += inner\n", "return anywhere"),
    ("a static local begun at each call", "declarations.py",
     '        self.front.append(("global", var, self.begin_global(var, node.init)))\n',
     '        self.front.append(("global", var, self.begin_global(var, node.init)))\n        self.emit(Assign(name(var), "=", const(0)))\n',
     "static locals"),
    ("an arm that doesn't fall", "control.py", "body = body + [Assign(name(chosen), \"=\", const(number + 1))]", "body = body + []",
     "switch that falls"),
    ("a break that leaves an arm and not the switch", "control.py", '[Assign(name(frame.go), "=", const(0), s.line)], {frame.go}',
     '[Assign(name(frame.go), "=", const(0), s.line)], set()', "jumps in nested"),
    ("a struct that isn't copied for a call", "calls.py", 'X("address", [self.kept_struct(x)], Pointer(t))',
     'X("address", [x], Pointer(t))', "structs passed"),
    ("a member that isn't copied", "expressions.py", "for member, t in to.type.members:", "for member, t in to.type.members[1:]:",
     "structs assigned"),
    ("a rest that isn't 0", "initialisers.py", "            self.zero(place)\n        elif isinstance(t, Struct)",
     "            pass\n        elif isinstance(t, Struct)", "initialisers: over"),
    ("a bool that keeps its value", "expressions.py", "                return truth(self.wants_scalar(x, node))\n            return",
     "                return self.wants_int(x, node)\n            return", "bool conversions"),
    ("the padding of a struct", "c_types.py", "        return -(-at // alignment(t)) * alignment(t)\n", "        return at\n", "sizeof"),
    ("a global's address forgotten", "initialisers.py", '                self.main_begin(Assign(name(var), "=", x))\n',
     "                pass\n", "globals with addresses"),
    ("an operand read too late", "expressions.py", "found = [self.kept(y, changed) if isinstance(y, X) else y for y in found]", "pass",
     "left to right"),
    ("an enumeration that is signed", "names.py", "INT if is_negative else UINT", "INT", "enum"),
    ("a percent sign in a string", "formats.py", 'split(b"\\0")[0].replace(b"%", b"%%"), None', 'split(b"\\0")[0], None', "puts"),
    ("a row of another length", "expressions.py", "        step = cells(decayed(a.type).to) if",
     "        step = decayed(a.type).to.length + 1 if", "rows as parameters"),
    ("a test of a loop that is asked once", "control.py", "            inner = ask + ([If(name(go), body)]",
     "            s.init += ask\n            inner = ([If(name(go), body)]", "tests of loops"),
    ("a shadowed name", "printing.py", "        var.final = var.name if is_free else self.fresh(var.name)\n",
     "        var.final = var.name\n", "shadowed"),
]


def copied(folder):
    """A copy of the tool."""
    tool = os.path.join(folder, "tools")
    os.mkdir(tool)
    shutil.copy(os.path.join(TOP, "tools", "prepare"), tool)
    shutil.copytree(os.path.join(TOP, "tools", "prepare_parts"), os.path.join(tool, "prepare_parts"))
    return tool


def is_found(plant, texts):
    """Whether a text with the plant's name is prepared wrongly, or not at all, by a copy with the mistake."""
    from kinds import check_row
    _, file, old, new, row = plant
    with tempfile.TemporaryDirectory() as folder:
        tool = copied(folder)
        path = os.path.join(tool, "prepare_parts", file)
        with open(path) as source:
            text = source.read()
        if text.count(old) != 1:
            raise SystemExit(f"check_prepare: the text of a planted mistake stands {text.count(old)} times in {file}: {old!r}")
        with open(path, "w") as source:
            source.write(text.replace(old, new))
        for number, (name, words, refused, output) in enumerate(texts):
            if not name.startswith(row):
                continue
            small = os.path.join(folder, f"small{number}.c")
            with open(small, "w") as target:
                target.write(words)
            try:
                check_row(small, refused, output, os.path.join(tool, "prepare"))
            except Differs:
                return True
    return False
