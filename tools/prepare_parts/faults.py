"""What the step refuses: each fault has its place in the file as it was written, and says what to write instead."""


class Refused(Exception):
    """A construct that the step doesn't take; without words where it is another's consequence, which isn't told again."""

    def __init__(self, node, words):
        super().__init__(words)
        self.node = node
        self.words = words


class Unable(Exception):
    """The step can't be done: the lines to tell, and the status."""

    def __init__(self, lines, status):
        super().__init__("\n".join(lines))
        self.lines = lines
        self.status = status


class Faults:
    """The faults and warnings that were found, each once, in the order of their places."""

    def __init__(self, source):
        self.source = source
        self.found = {}
        self.count = 0
        self.warnings = {}

    def add(self, node, words):
        self.count += 1
        if words:
            self.found.setdefault((self.place(node), words), None)

    def warn(self, node, words):
        self.warnings.setdefault((self.place(node), words), None)

    def place(self, node):
        coord = getattr(node, "coord", None)
        if coord is None:
            return (self.source.main, 1, 1)
        file, line = self.source.origin(coord.line)
        return (file, line, coord.column or 1)

    @staticmethod
    def told(kind, found):
        return [f"{file}:{line}:{column}: {kind}: {words}" for (file, line, column), words in sorted(found)]

    def lines(self):
        return self.told("warning", self.warnings) + self.told("error", self.found)
