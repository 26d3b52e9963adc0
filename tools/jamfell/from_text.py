"""From text to values. docs/WALKTHROUGH.md, "The text form", has the fields of each block."""

import re

from .encode import encode_attempt
from .lines import Block, listed, near, read_lines
from .primitives import quoted
from .values import (
    EVIDENCES,
    INDEX_END,
    KINDS,
    LONGEST_ATTEMPT,
    MEMBERS,
    MOST_BACKERS,
    MOST_CONFIGS,
    MOST_SEALS,
    MOST_SIGNATURES,
    NUMBERS,
    PRIMITIVES,
    SEALED,
    SEALS,
    SN_END,
    TOAD_END,
    TRAITS,
    VERDICTS,
    Anchor,
    Attempt,
    Credential,
    Evidence,
    Registry,
    Seal,
    Signature,
    Source,
    Status,
)

REGISTRY_FIELDS = ("id", "issuer", "sn", "latest", "toad", "config", "backer")
CREDENTIAL_FIELDS = ("registry", "credential", "sn", "head")
HEADERS = tuple(f"attempt {kind}" for kind in KINDS + ("raw",)) + ("registry-state", "credential-state", "status")

_HEX = re.compile(r"(?:[0-9A-Fa-f]{2})+")


def _said(words):
    return words.primitive("said")


def _identifier(words):
    return words.primitive("identifier")


def _basic_prefix(words):
    return words.primitive("basic prefix")


def _sn(words):
    return words.number(SN_END, "sn")


def _toad(words):
    return words.number(TOAD_END, "toad")


def _trait(words):
    return words.one_of(TRAITS, "trait")


def _seal(words):
    kind = words.one_of(SEALS, "kind of seal")
    if kind != "Event":
        return Seal(kind)
    words.form = "Event I S D"
    return Seal(kind, _identifier(words), _sn(words), _said(words))


def _source(words):
    return Source(_sn(words), _said(words))


def _signature(words):
    return Signature(words.number(INDEX_END, "index"), words.one_of(VERDICTS, "verdict"))


def _hex(words):
    word = words.next()
    if not _HEX.fullmatch(word):
        raise words.fault(f"{quoted(word)} is not hex digits, two for each byte")
    return bytes.fromhex(word)


def _anchor(block, field):
    def head(words):
        return _identifier(words), _sn(words), _said(words)

    found = block.perhaps(field, "PREFIX SN SAID", head)
    if found is None:
        return None
    return Anchor(*found, block.many(f"{field}.seal", "KIND", MOST_SEALS, _seal))


def _registry(block, under=""):
    return Registry(
        block.one(f"{under}id", "SAID", _said),
        block.one(f"{under}issuer", "PREFIX", _identifier),
        block.one(f"{under}sn", "SN", _sn),
        block.one(f"{under}latest", "SAID", _said),
        block.one(f"{under}toad", "NUMBER", _toad),
        block.many(f"{under}config", "TRAIT", MOST_CONFIGS, _trait),
        block.many(f"{under}backer", "PREFIX", MOST_BACKERS, _basic_prefix),
    )


def _credential(block, under=""):
    return Credential(
        block.one(f"{under}registry", "SAID", _said),
        block.one(f"{under}credential", "SAID", _said),
        block.one(f"{under}sn", "SN", _sn),
        block.one(f"{under}head", "SAID", _said),
    )


def _evidence(block):
    def head(words):
        kind = words.one_of(EVIDENCES, "evidence")
        if kind != "Issuer":
            return Evidence(kind)
        words.form = "Issuer PREFIX"
        return Evidence(kind, prefix=_identifier(words))

    evidence = block.one("evidence", listed(EVIDENCES).replace(", ", "|"), head)
    if evidence.kind == "Issuer":
        evidence = evidence._replace(anchor=_anchor(block, "evidence.anchor"))
    if evidence.kind == "BackerAt":
        evidence = evidence._replace(state=_registry(block, "evidence."))
    return evidence


def attempt_fields(kind):
    """The fields of an attempt of this kind, in the order of the bytes."""
    event = PRIMITIVES[kind] + NUMBERS[kind] + (("config",) if kind == "vcp" else ())
    event += tuple(name for name in MEMBERS.get(kind, ()) if name) + (("seal",) if kind in SEALED else ())
    evidence = ("evidence", "evidence.anchor", "evidence.anchor.seal")
    return event + ("source", "anchor", "anchor.seal", "signature") + evidence + tuple(f"evidence.{name}" for name in REGISTRY_FIELDS)


def _event(block, kind):
    """What sections 1 to 6 have."""
    first, second = MEMBERS.get(kind, (None, None))
    primitives = {name: ("PREFIX", _identifier) if name == "issuer" else ("SAID", _said) for name in PRIMITIVES[kind]}
    numbers = {name: ("NUMBER", _toad) if name == "toad" else ("SN", _sn) for name in NUMBERS[kind]}
    return (
        kind,
        tuple(block.one(name, *how) for name, how in primitives.items()),
        tuple(block.one(name, *how) for name, how in numbers.items()),
        block.many("config", "TRAIT", MOST_CONFIGS, _trait),
        block.many(first, "PREFIX", MOST_BACKERS, _basic_prefix),
        block.many(second, "PREFIX", MOST_BACKERS, _basic_prefix),
        block.one("seal", "KIND", _seal) if kind in SEALED else None,
    )


def _attempt(block, kind):
    block.only(attempt_fields(kind))
    attempt = Attempt(
        *_event(block, kind),
        block.perhaps("source", "SN SAID", _source),
        _anchor(block, "anchor"),
        block.many("signature", "INDEX good|failed", MOST_SIGNATURES, _signature),
        _evidence(block),
    )
    _left_over(block, attempt.evidence.kind)
    return encode_attempt(attempt)


def _left_over(block, evidence):
    """Lines that nobody asked for, since the line that they belong to is not there or is another."""
    for line in block.lines:
        if line.field == "anchor.seal" or (line.field == "evidence.anchor.seal" and evidence == "Issuer"):
            raise line.fault(f"'{line.field}' needs a line '{line.field[:-5]} PREFIX SN SAID'")
        raise line.fault(f"'{line.field}' does not belong to 'evidence {evidence}'")


def _raw(block):
    """An attempt as bytes, whatever they are: so that one that is malformed can be told and tried."""
    block.only(("bytes",))
    data = b"".join(block.many("bytes", "HEX", LONGEST_ATTEMPT, _hex))
    if len(data) > LONGEST_ATTEMPT:
        raise block.header.fault(f"an attempt has at most {LONGEST_ATTEMPT} bytes, and this one {len(data)}")
    return data


def _status(block):
    states = tuple(f"registry-state.{name}" for name in REGISTRY_FIELDS) + tuple(f"credential-state.{name}" for name in CREDENTIAL_FIELDS)
    block.only(("said", "issuer", "registry") + states + ("issuer-prefix",))

    def reference(words):
        if words.left and words.left[0] in ("none", "block"):
            return words.next(), None
        return "said", _said(words)

    return Status(
        block.one("said", "SAID", _said),
        block.one("issuer", "PREFIX", _identifier),
        *block.one("registry", "SAID|none|block", reference),
        _registry(block, "registry-state.") if block.has("registry-state.") else None,
        _credential(block, "credential-state.") if block.has("credential-state.") else None,
        block.perhaps("issuer-prefix", "PREFIX", _identifier),
    )


def _value(block, header):
    if header == "attempt raw":
        return _raw(block)
    if header.startswith("attempt "):
        return _attempt(block, header.split()[1])
    if header == "status":
        return _status(block)
    if header == "registry-state":
        block.only(REGISTRY_FIELDS)
        return _registry(block)
    block.only(CREDENTIAL_FIELDS)
    return _credential(block)


def _blocks(text):
    """The text cut at its headers: the header's words and the block."""
    block = None
    for line in read_lines(text):
        header = " ".join([line.field] + line.words)
        if line.field in ("attempt", "registry-state", "credential-state", "status"):
            if block:
                yield block
            if header not in HEADERS:
                meant = near(header, HEADERS) if line.words else ""
                raise line.fault(f"{quoted(header)} starts nothing{meant}; what can be started is {listed(HEADERS)}")
            block = Block(line, header)
        elif block is None:
            raise line.fault(f"{quoted(line.field)} stands before any header, as 'attempt vcp' or 'status'{near(header, HEADERS)}")
        else:
            block.lines.append(line)
    if block:
        yield block


def read_text(text):
    """What the text has, in its order: each with its header, the line that it stands on, and its value.

    The value of an attempt is its bytes, that of anything else a tuple of values.py.
    """
    return [(block.what, block.header.number, _value(block, block.what)) for block in _blocks(text)]
