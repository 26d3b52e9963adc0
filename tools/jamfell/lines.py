"""Text cut in blocks: a header line and the lines of its fields. A '#' starts a comment, and empty lines do not count."""

import difflib
import re

from .faults import BadText
from .primitives import parse_primitive, quoted

_DECIMAL = re.compile(r"[0-9]{1,39}")


class Line:
    def __init__(self, number, words):
        self.number = number
        self.field = words[0]
        self.words = words[1:]

    def fault(self, why):
        return BadText(self.number, why)


def near(word, names):
    """A word for a name that was misspelt, or nothing."""
    found = difflib.get_close_matches(word, names, 1)
    return f" (did you mean '{found[0]}'?)" if found else ""


def listed(names):
    return ", ".join(names)


def read_lines(text):
    for number, line in enumerate(text.split("\n"), 1):
        words = line.split("#")[0].split()
        if words:
            yield Line(number, words)


class Words:
    """The words behind a field, taken one by one. `form` says in a message what they should be."""

    def __init__(self, line, form):
        self.line = line
        self.form = form
        self.left = list(line.words)

    def fault(self, why):
        return self.line.fault(f"{self.line.field}: {why}")

    def next(self):
        if not self.left:
            raise self.fault(f"something is missing; the line should be '{self.line.field} {self.form}'")
        return self.left.pop(0)

    def end(self):
        if self.left:
            raise self.fault(f"{quoted(self.left[0])} is too much; the line should be '{self.line.field} {self.form}'")

    def primitive(self, role):
        try:
            return parse_primitive(self.next(), role)
        except ValueError as why:
            raise self.fault(str(why)) from None

    def number(self, end, what):
        word = self.next()
        if not _DECIMAL.fullmatch(word):
            raise self.fault(f"{quoted(word)} is no {what}: it is a number from 0 to {end - 1}, in decimal digits")
        if int(word) >= end:
            raise self.fault(f"{what} {word} is too large: it is at most {end - 1}")
        return int(word)

    def one_of(self, names, what):
        word = self.next()
        if word not in names:
            raise self.fault(f"{quoted(word)} is no {what}{near(word, names)}; there are {listed(names)}")
        return word


class Block:
    """A header and its fields. A field that is asked for is taken; at the end none may be left."""

    def __init__(self, header, what):
        self.header = header
        # The header's words.
        self.what = what
        self.lines = []

    def only(self, allowed):
        """Refuses a field that is none of these."""
        for line in self.lines:
            if line.field not in allowed:
                raise line.fault(f"{self.what} has no field {quoted(line.field)}{near(line.field, allowed)}; it has {listed(allowed)}")

    def has(self, start):
        return any(line.field.startswith(start) for line in self.lines)

    def many(self, field, form, most, read):
        mine = [line for line in self.lines if line.field == field]
        self.lines = [line for line in self.lines if line.field != field]
        if len(mine) > most:
            first = f", and the first stands on line {mine[0].number}" if most == 1 else ""
            raise mine[most].fault(f"{self.what} has at most {most} '{field}'{first}")
        values = []
        for line in mine:
            words = Words(line, form)
            values.append(read(words))
            words.end()
        return tuple(values)

    def perhaps(self, field, form, read):
        found = self.many(field, form, 1, read)
        return found[0] if found else None

    def one(self, field, form, read):
        found = self.many(field, form, 1, read)
        if not found:
            raise self.header.fault(f"{self.what} needs a line '{field} {form}'")
        return found[0]
