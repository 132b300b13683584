"""Many texts that share most of their lines, in little room."""

MOST_CANDIDATES = 16


class Store:
    """Lines, each text being a list of stretches of them."""

    def __init__(self):
        self.lines = []
        self.places = {}

    def longest(self, text, at, follows):
        """Where the longest stretch of stored lines begins that the text has from a line on, and its length. The one that follows the
        stretch before is taken where it is as long."""
        best = (0, 0)
        for place in [follows, *self.places.get(text[at], [])]:
            length = 0
            while at + length < len(text) and place + length < len(self.lines) and self.lines[place + length] == text[at + length]:
                length += 1
            best = max(best, (length, place), key=lambda found: found[0])
        return best[1], best[0]

    def add(self, line):
        """Stores a line, and gives its place."""
        known = self.places.setdefault(line, [])
        if len(known) < MOST_CANDIDATES:
            known.append(len(self.lines))
        self.lines.append(line)
        return len(self.lines) - 1

    def stretches(self, text):
        """The stretches of a text, as first places and lengths by turns; lines that weren't there are stored."""
        lines = text.split("\n")
        found, at, follows = [], 0, 0
        while at < len(lines):
            place, length = self.longest(lines, at, follows)
            if length == 0:
                place, length = self.add(lines[at]), 1
            if found and found[-2] + found[-1] == place:
                found[-1] += length
            else:
                found += [place, length]
            at += length
            follows = place + length
        return found


def ranges(numbers):
    """Ascending numbers as first numbers and lengths by turns."""
    found = []
    for number in numbers:
        if found and found[-2] + found[-1] == number:
            found[-1] += 1
        else:
            found += [number, 1]
    return found
