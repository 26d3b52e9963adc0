"""A reader of bytes that says, where it stops, at which byte and in which part (docs/RULES.md, "Bytes")."""

from .faults import Malformed
from .primitives import ARTICLES, ROLES, letters_of


def _plural(n, what):
    return f"{n} {what}" if n == 1 else f"{n} {what}s"


def _counts(allowed):
    """As '2' or '0 to 16'."""
    least, most = allowed
    if least == most:
        return str(most)
    return f"{least} or {most}" if most == least + 1 else f"{least} to {most}"


class Reader:
    def __init__(self, data):
        self.data = data
        self.at = 0

    def take(self, n, where):
        left = len(self.data) - self.at
        if left < n:
            raise Malformed(self.at, where, f"the bytes end too early: {n} are needed here, and {left} left")
        self.at += n
        return self.data[self.at - n : self.at]

    def number(self, n, where):
        return int.from_bytes(self.take(n, where), "big")

    def one_of(self, names, first, where, what):
        """A byte that stands for one of the names, the first of which has the number `first`."""
        at = self.at
        byte = self.number(1, where)
        if not first <= byte < first + len(names):
            raise Malformed(at, where, f"{what} is {byte}, and not {first} to {first + len(names) - 1}")
        return names[byte - first]

    def primitive(self, role, where):
        at = self.at
        primitive = self.take(33, where)
        if primitive[0] not in ROLES[role].encode():
            why = f"{ARTICLES[role]} has the letter {letters_of(role)}, and this is byte 0x{primitive[0]:02x}"
            raise Malformed(at, where, why)
        return primitive

    def below(self, n, end, where, what):
        at = self.at
        number = self.number(n, where)
        if number >= end:
            raise Malformed(at, where, f"{what} is {number}, and not below {end}")
        return number

    def section(self, allowed, where, read, width=1, each=None):
        """A count, within what is allowed, and so many elements. They are told by their positions, or counted from 1 by the word `each`."""
        at = self.at
        n = self.number(width, f"{where}, its count")
        least, most = allowed
        if not least <= n <= most:
            raise Malformed(at, f"{where}, its count", f"the count is {n}, and not {_counts(allowed)}")
        if most == 1:
            return tuple(read(self, where) for _ in range(n))
        return tuple(read(self, f"{each} {place + 1}" if each else f"{where}, position {place}") for place in range(n))

    def perhaps(self, where, read):
        """A section of 0 or 1 element: the element, or None."""
        found = self.section((0, 1), where, read)
        return found[0] if found else None

    def end(self):
        left = len(self.data) - self.at
        if left:
            raise Malformed(self.at, "behind the end", f"{_plural(left, 'byte')} too many: nothing may follow the last section")
