"""Jumps become flags and ifs: behind this pass only the last statement of a function returns, and each arm of a switch ends with its break.

A `break` sets the loop's `go` to 0, a `continue` sets `skip` to 1, a `return` sets `done` to 1 behind the assignment of the result. What
stands behind a statement in which one of these may happen is put under a test of them, or, behind an if whose first branch always jumps,
into its other branch.
"""
from c_types import INT, Pointer, Struct, VOID
from tree import (Arm, Assign, Block, Break, Bump, Continue, Declare, If, Invoke, Loop, Return, Switch, Var, X, both, const, inner_lists,
                  name, negated, operator_type, truth)


class Frame:
    """A loop or a switch in which a jump may stand; its flags are made where one does."""

    def __init__(self, kind, stop=None):
        self.kind = kind
        self.go = stop
        self.skip = None


def leaves(statements):
    """Whether what stands behind these statements is never reached from them."""
    return any(leaves_one(s) for s in statements)


def leaves_one(s):
    """Whether what stands behind a statement is never reached from it."""
    if isinstance(s, (Break, Continue, Return)):
        return True
    if isinstance(s, If):
        return leaves(s.then) and leaves(s.other)
    if isinstance(s, Loop):
        return s.test is None and not breaks(s.body)
    return isinstance(s, Block) and leaves(s.body)


def breaks(statements):
    """Whether a break of the loop around stands in these statements."""
    return any(isinstance(s, Break) or (not isinstance(s, (Loop, Switch)) and any(breaks(part) for part in inner_lists(s)))
               for s in statements)


def returns_in(statements):
    """How many returns stand in statements."""
    return sum(isinstance(s, Return) + sum(returns_in(part) for part in inner_lists(s)) for s in statements)


def without_last_break(body):
    """The statements of an arm without the break that ends them."""
    if body and isinstance(body[-1], Break):
        return body[:-1]
    if body and isinstance(body[-1], Block):
        last = body[-1]
        return body[:-1] + [Block(without_last_break(last.body), last.line, last.end)]
    return body


def without_lines(statements):
    """Lets statements stand where the page stands: a test that is asked behind a step may have to stand behind that one's line."""
    for s in statements:
        s.line = None
        for part in inner_lists(s):
            without_lines(part)


class Control:
    """Takes the jumps out of functions."""

    def __init__(self, fresh):
        self.fresh = fresh
        self.frames = []
        self.begun = []
        self.done = None
        self.result = None

    def function(self, made):
        """Gives a function the body without jumps."""
        t = made.entry.type.result
        is_void = t == VOID or isinstance(t, Struct)
        body = made.body
        count = returns_in(body)
        self.frames, self.begun, self.done, self.result = [], [], None, None
        if count == 1 and isinstance(body[-1], Return):
            front, _ = self.list(body[:-1])
            last = body[-1]
            if last.value is None and not is_void:
                last.value = const(0)
            made.body = front + [last]
        elif count == 0:
            made.body, _ = self.list(body)
            if not is_void and made.entry.name != "main":
                made.body.append(Return(const(0), made.end))
        else:
            self.with_flags(made, t, is_void)
        self.settle()

    def with_flags(self, made, t, is_void):
        """A body with several returns, or one that isn't its last statement."""
        self.done = Var(self.fresh("done"), INT)
        front = []
        if not is_void:
            self.result = Var(self.fresh("result"), t)
            front.append(Declare(self.result, None if leaves(made.body) else const(0)))
        body, _ = self.list(made.body)
        flag = self.begin(self.done, 0)
        if self.done.is_tested or is_void:
            front.append(flag)
        else:
            body = self.without_flag(body)
        if not is_void:
            body = self.without_last_flag(body)
        made.body = front + body + ([] if is_void else [Return(name(self.result), made.end)])

    def without_flag(self, statements):
        """The statements without those that set a flag for the return that nobody tests."""
        kept = [s for s in statements if not (isinstance(s, Assign) and s.place.word is self.done)]
        for s in kept:
            if isinstance(s, If):
                s.then, s.other = self.without_flag(s.then), self.without_flag(s.other)
            elif isinstance(s, Switch):
                for arm in s.arms:
                    arm.body = self.without_flag(arm.body)
            elif isinstance(s, (Loop, Block)):
                s.body = self.without_flag(s.body)
        return kept

    def without_last_flag(self, statements):
        """The statements without a flag for the return that is set where the function ends."""
        if not statements:
            return statements
        last = statements[-1]
        if isinstance(last, Assign) and last.place.word is self.done:
            return self.without_last_flag(statements[:-1])
        if isinstance(last, If):
            last.then, last.other = self.without_last_flag(last.then), self.without_last_flag(last.other)
        elif isinstance(last, Block):
            last.body = self.without_last_flag(last.body)
        elif isinstance(last, Switch):
            for arm in last.arms:
                arm.body = self.without_last_flag(arm.body)
        return statements

    # flags

    def begin(self, var, value):
        """The declaration of a flag; in the end it has no value where nobody tests it."""
        declared = Declare(var, const(value))
        self.begun.append(declared)
        return declared

    def settle(self):
        for declared in self.begun:
            if not declared.var.is_tested:
                declared.value = None

    def runs(self, flags):
        """The test that none of the flags tells of a jump."""
        test = None
        for flag in sorted(flags, key=lambda flag: (flag is not self.done, flag.name)):
            flag.is_tested = True
            is_positive = flag.name.startswith(("go_", "arm_"))
            test = both(test, name(flag) if is_positive else negated(name(flag)))
        return test

    # statements

    def list(self, statements):
        """The statements without jumps, and the flags that they may set."""
        made, flags = [], set()
        for at, s in enumerate(statements):
            rest = statements[at + 1:]
            if rest and isinstance(s, If) and leaves(s.then):
                then, first = self.list(s.then)
                other, second = self.list(s.other + rest)
                made.append(If(s.test, then, other, s.line, s.then_end, s.end))
                return made, flags | first | second
            lowered, found = self.statement(s)
            made += lowered
            flags |= found
            if found and rest:
                inner, more = self.list(rest)
                made.append(If(self.runs(found), inner))
                return made, flags | more
        return made, flags

    def statement(self, s):
        if isinstance(s, Break):
            return self.break_(s)
        if isinstance(s, Continue):
            return self.continue_(s)
        if isinstance(s, Return):
            return self.return_(s)
        if isinstance(s, If):
            then, first = self.list(s.then)
            other, second = self.list(s.other)
            return [If(s.test, then, other, s.line, s.then_end, s.end)], first | second
        if isinstance(s, Block):
            body, flags = self.list(s.body)
            return [Block(body, s.line, s.end)], flags
        if isinstance(s, Loop):
            return self.loop(s)
        return self.switch(s) if isinstance(s, Switch) else ([s], set())

    def break_(self, s):
        frame = self.frames[-1]
        if frame.go is None:
            frame.go = Var(self.fresh("go"), INT)
        return [Assign(name(frame.go), "=", const(0), s.line)], {frame.go}

    def continue_(self, s):
        frame = next(frame for frame in reversed(self.frames) if frame.kind == "loop")
        if frame.skip is None:
            frame.skip = Var(self.fresh("skip"), INT)
        return [Assign(name(frame.skip), "=", const(1), s.line)], {frame.skip}

    def return_(self, s):
        made = []
        if self.result is not None:
            made.append(Assign(name(self.result), "=", const(0) if s.value is None else s.value, s.line))
        return made + [Assign(name(self.done), "=", const(1), s.line)], {self.done}

    # loops

    def loop(self, s):
        frame = Frame("loop")
        self.frames.append(frame)
        body, flags = self.list(s.body)
        self.frames.pop()
        stops = flags - {frame.skip}
        if frame.skip is not None:
            body = [self.begin(frame.skip, 0), *body]
        step = self.guarded_step(s, stops)
        if s.before or step is None:
            made = self.long_loop(s, frame, body, stops)
        else:
            made = self.short_loop(s, frame, body, stops, step)
        return made, flags - {frame.skip, frame.go}

    def guarded_step(self, s, stops):
        """The step as a statement of the loop's head that does nothing once the loop has to stop; None where there is no such."""
        if len(s.step) > 1 or (s.kind != "for" and s.step):
            return None
        if not s.step or not stops:
            return s.step if all(isinstance(step, (Assign, Bump, Invoke)) for step in s.step) else None
        step = s.step[0]
        if not isinstance(step, (Assign, Bump)) or step.place.kind != "name":
            return None
        old = step.place
        if isinstance(step, Bump):
            value = self.changed(old, step.op[0], const(1))
        elif not isinstance(step.value, X):
            return None
        else:
            value = step.value if step.op == "=" else self.changed(old, step.op[:-1], step.value)
        return [Assign(old, "=", X("choose", [self.runs(stops), value, old], old.type), step.line)]

    @staticmethod
    def changed(old, op, value):
        t = old.type if isinstance(old.type, Pointer) else operator_type(op, old.type, value.type)
        return X("binary", [old, value], t, op)

    def short_loop(self, s, frame, body, stops, step):
        """A loop whose test is an expression."""
        test = both(self.runs(stops), s.test) or const(1)
        front = [self.begin(frame.go, 1)] if frame.go is not None else []
        init = s.init
        if s.kind == "for" and init and not (len(init) == 1 and self.fits_head(init[0])):
            front, init = front + init, []
        kind = "while" if s.kind == "for" and not init and not step else s.kind
        made = Loop(kind, init, [], test, step, body, s.line, s.end, s.test_line)
        return self.block(s, front + [made], s.init and not init)

    @staticmethod
    def fits_head(s):
        if isinstance(s, Declare):
            return isinstance(s.value, X)
        return isinstance(s, (Assign, Bump, Invoke))

    @staticmethod
    def block(s, statements, is_block):
        """The statements, in a block of their own where a loop's variables are among them."""
        if is_block and any(isinstance(part, Declare) for part in s.init):
            return [Block(statements, s.line, s.end)]
        return statements

    def long_loop(self, s, frame, body, stops):
        """A loop whose test needs statements in front, or whose step doesn't fit into its head."""
        if frame.go is None:
            frame.go = Var(self.fresh("go"), INT)
        go = frame.go
        ask = s.before + ([Assign(name(go), "=", truth(s.test))] if s.test is not None else [])
        if s.kind == "for":
            without_lines(ask)
        front = s.init + [self.begin(go, 1)]
        if s.kind == "do":
            guard = self.runs(stops)
            inner = body + ([If(guard, ask)] if guard is not None else ask)
        else:
            inner = ask + ([If(name(go), body)] if s.test is not None else body)
            if s.step:
                turn = Var(self.fresh("turn"), INT)
                turn.is_tested = True
                front.append(self.begin(turn, 0))
                inner = [If(name(turn), s.step), Assign(name(turn), "=", const(1))] + inner
        test = self.runs(stops | {go})
        made = Loop("do" if s.kind == "do" else "while", [], [], test, [], inner, s.line, s.end, s.test_line)
        return self.block(s, front + [made], bool(s.init))

    # switches

    def switch(self, s):
        if any(not leaves(arm.body) for arm in s.arms[:-1]):
            return self.falling_switch(s)
        frame = Frame("switch")
        self.frames.append(frame)
        arms, flags = [], set()
        for arm in s.arms:
            body, found = self.list(without_last_break(arm.body))
            arms.append(Arm(arm.labels, self.in_block(body), arm.line))
            flags |= found
        self.frames.pop()
        front = [self.begin(frame.go, 1)] if frame.go is not None else []
        return front + [Switch(s.value, arms, s.line, s.end)], flags - {frame.go}

    @staticmethod
    def in_block(body):
        """The statements of an arm; a declaration stands in a block there."""
        return [Block(body)] if any(isinstance(s, Declare) for s in body) else body

    def falling_switch(self, s):
        """A switch that falls through: the number of the arm is chosen first, and each arm is an if behind."""
        chosen = Var(self.fresh("arm"), INT)
        frame = Frame("switch", chosen)
        self.frames.append(frame)
        arms, parts, flags = [], [], set()
        for number, arm in enumerate(s.arms, 1):
            arms.append(Arm(arm.labels, [Assign(name(chosen), "=", const(number), s.line)], None))
            body = without_last_break(arm.body)
            if number < len(s.arms) and not leaves(arm.body):
                body = body + [Assign(name(chosen), "=", const(number + 1))]
            lowered, found = self.list(body)
            parts.append(If(X("binary", [name(chosen), const(number)], INT, "=="), lowered, [], arm.line))
            flags |= found
        self.frames.pop()
        chosen.is_tested = True
        return [self.begin(chosen, 0), Switch(s.value, arms, s.line, None), *parts], flags - {chosen}
