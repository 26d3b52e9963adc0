"""Primitives as text: a code letter and 64 hex digits, or a letter, a colon and a name.

A name stands for the SHA-256 of its characters, so that a person can write an example by hand. It is no said of anything.
"""

import hashlib
import re

ROLES = {"basic prefix": "BD", "said": "EFGHI", "identifier": "BDEFGHI"}
ARTICLES = {"basic prefix": "a basic prefix", "said": "a said", "identifier": "an identifier"}

_HEX = re.compile(r"([A-Za-z])([0-9A-Fa-f]{64})")
# Any character of ASCII that can be seen but '#', which starts a comment.
_NAME = re.compile(r"([A-Za-z]):([!\"$-~]+)")


def quoted(word):
    """A word in a message. Of a very long one the start is enough."""
    return f"'{word}'" if len(word) <= 72 else f"'{word[:40]}..', of {len(word)} characters,"


def letters_of(role):
    """As 'E, F, G, H or I'."""
    *others, last = ROLES[role]
    return f"{', '.join(others)} or {last}"


def named(letter, name):
    return letter.encode() + hashlib.sha256(name.encode()).digest()


def parse_primitive(word, role):
    """The 33 bytes of a word of text. What is wrong with it comes as a ValueError."""
    whole = _HEX.fullmatch(word)
    short = _NAME.fullmatch(word)
    if not whole and not short:
        raise ValueError(f"{quoted(word)} is no {role}: it is a letter with 64 hex digits, or a letter, a colon and a name, as E:pipe-12")
    letter = (whole or short).group(1)
    if letter not in ROLES[role]:
        raise ValueError(f"{quoted(word)}: {ARTICLES[role]} has the letter {letters_of(role)}, not {letter}")
    if whole:
        return letter.encode() + bytes.fromhex(whole.group(2))
    return named(letter, short.group(2))


class Names:
    """The names that are known, so that primitives can be told by them. Without any, all are told in hex."""

    def __init__(self):
        self._names = {}

    def learn(self, text):
        """Every word of a text that is a letter, a colon and a name."""
        for line in text.splitlines():
            for word in line.split("#")[0].split():
                short = _NAME.fullmatch(word)
                if short and short.group(1) in ROLES["identifier"]:
                    self._names.setdefault(named(*short.groups()), word)

    def whole(self, primitive):
        return self._names.get(primitive) or chr(primitive[0]) + primitive[1:].hex()

    def brief(self, primitive):
        """For a line of words: the name, or the first hex digits."""
        return self._names.get(primitive) or f"{chr(primitive[0])}{primitive[1:7].hex()}.."
