"""The recorded inputs of this repository, cut in their records. The formats are those of the programs that read them."""

import sys
from pathlib import Path

ROOT = Path(__file__).resolve().parent.parent.parent
sys.path.insert(0, str(ROOT / "tools"))

# How many of each were looked at, for the last line.
counted = {}


def count(what, n=1):
    counted[what] = counted.get(what, 0) + n


def _number(data, at, n):
    return int.from_bytes(data[at : at + n], "big")


def decodes():
    """Whether an attempt is expected to be malformed, and its bytes (crates/decodes/src/main.rt)."""
    data = (ROOT / "crates/decodes/stdin").read_bytes()
    at = 0
    while at < len(data):
        length = _number(data, at + 2, 2)
        yield data[at] == 1, data[at + 4 : at + 4 + length]
        at += 4 + length


def folds():
    """The call, the report that is expected, and the next state, registry, credential and input (crates/folds/src/main.rt)."""
    data = (ROOT / "crates/folds/stdin").read_bytes()
    at = 0
    while at < len(data):
        first = data[at : at + 46]
        at += 46
        parts = []
        for place in range(38, 46, 2):
            length = _number(first, place, 2)
            parts.append(data[at : at + length])
            at += length
        yield first[0], first[2:38], parts


def images():
    """What is expected of an image, and the image (crates/images/src/main.rt)."""
    data = (ROOT / "crates/images/stdin").read_bytes()
    at = 0
    while at < len(data):
        length = _number(data, at + 78, 2)
        yield data[at : at + 80], data[at + 80 : at + 80 + length]
        at += 80 + length


def inputs():
    """The inputs of the printed program, each with what it prints of them."""
    pairs = [(ROOT / "crates/attempts/stdin", ROOT / "crates/attempts/stdout")]
    pairs += [(path, path.with_suffix(".txt")) for path in sorted((ROOT / "tests/attempts").glob("*.bin"))]
    for path, said in pairs:
        yield path, path.read_bytes(), said.read_text().splitlines()
