"""From bytes to values. What docs/RULES.md calls malformed is a `Malformed` here, and nothing else is."""

from .faults import Malformed
from .reader import Reader
from .values import (
    EVIDENCES,
    KINDS,
    MEMBERS,
    MOST_BACKERS,
    MOST_CONFIGS,
    MOST_CREDENTIALS,
    MOST_REGISTRIES,
    MOST_SEALS,
    MOST_SIGNATURES,
    NUMBERS,
    PRIMITIVES,
    REFERENCES,
    SEALED,
    SEALS,
    TOAD_END,
    TRAITS,
    VERDICTS,
    Anchor,
    Attempt,
    Credential,
    Evidence,
    Ledger,
    Registry,
    Seal,
    Signature,
    Source,
    Status,
)


def _trait(r, where):
    return r.one_of(TRAITS, 1, where, "a config byte")


def _basic_prefix(r, where):
    return r.primitive("basic prefix", where)


def _seal(r, where):
    kind = r.one_of(SEALS, 1, where, "a seal's byte")
    if kind != "Event":
        return Seal(kind)
    i = r.primitive("identifier", f"{where}, i")
    s = r.number(16, f"{where}, s")
    return Seal(kind, i, s, r.primitive("said", f"{where}, d"))


def _source(r, where):
    return Source(r.number(16, f"{where}, sn"), r.primitive("said", f"{where}, said"))


def _anchor(r, where):
    prefix = r.primitive("identifier", f"{where}, prefix")
    sn = r.number(16, f"{where}, sn")
    said = r.primitive("said", f"{where}, said")
    return Anchor(prefix, sn, said, r.section((0, MOST_SEALS), f"{where}, seals", _seal))


def _signature(r, where):
    index = r.number(4, f"{where}, index")
    return Signature(index, r.one_of(VERDICTS, 0, f"{where}, verdict", "a verdict"))


def _registry(r, where):
    return Registry(
        r.primitive("said", f"{where}, id"),
        r.primitive("identifier", f"{where}, issuer"),
        r.number(16, f"{where}, sn"),
        r.primitive("said", f"{where}, latest"),
        r.number(4, f"{where}, toad"),
        r.section((0, MOST_CONFIGS), f"{where}, config", _trait),
        r.section((0, MOST_BACKERS), f"{where}, backers", _basic_prefix),
    )


def _credential(r, where):
    return Credential(
        r.primitive("said", f"{where}, registry"),
        r.primitive("said", f"{where}, credential"),
        r.number(16, f"{where}, sn"),
        r.primitive("said", f"{where}, head"),
    )


def _evidence(r, where):
    kind = r.one_of(EVIDENCES, 0, where, "the evidence's byte")
    if kind == "Issuer":
        prefix = r.primitive("identifier", f"{where}, prefix")
        return Evidence(kind, prefix=prefix, anchor=r.perhaps(f"{where}, anchoring event", _anchor))
    if kind == "BackerAt":
        return Evidence(kind, state=_registry(r, f"{where}, registry state"))
    return Evidence(kind)


def _counted(r, names, where, read):
    """A section whose elements have names: as many as there are names, each read by its own."""
    at = r.at
    n = r.number(1, f"{where}, its count")
    if n != len(names):
        listed = f": {', '.join(names)}" if names else ""
        raise Malformed(at, f"{where}, its count", f"the count is {n}, and not {len(names)}{listed}")
    return tuple(read(r, name, f"{where}, {name}") for name in names)


def _named_primitive(r, name, where):
    return r.primitive("identifier" if name == "issuer" else "said", where)


def _named_number(r, name, where):
    return r.below(16, TOAD_END, where, "a toad") if name == "toad" else r.number(16, where)


def _event(r, kind):
    """Sections 1 to 6."""
    first, second = MEMBERS.get(kind, (None, None))
    return (
        kind,
        _counted(r, PRIMITIVES[kind], f"{kind}, section 1", _named_primitive),
        _counted(r, NUMBERS[kind], f"{kind}, section 2", _named_number),
        r.section((0, MOST_CONFIGS if kind == "vcp" else 0), f"{kind}, section 3, config", _trait),
        r.section((0, MOST_BACKERS if first else 0), f"{kind}, section 4, {first or 'backer'}s", _basic_prefix),
        r.section((0, MOST_BACKERS if second else 0), f"{kind}, section 5, additions", _basic_prefix),
        r.section((1, 1) if kind in SEALED else (0, 0), f"{kind}, section 6, own seal", _seal),
    )


def decode_attempt(data):
    r = Reader(data)
    kind = r.one_of(KINDS, 1, "kind", "the kind byte")
    *event, seals = _event(r, kind)
    attempt = Attempt(
        *event,
        seals[0] if seals else None,
        r.perhaps(f"{kind}, section 7, source", _source),
        r.perhaps(f"{kind}, section 8, anchoring event", _anchor),
        r.section((0, MOST_SIGNATURES), f"{kind}, section 9, signatures", _signature),
        r.section((1, 1), f"{kind}, section 10, evidence", _evidence)[0],
    )
    r.end()
    return attempt


def decode_registry(data):
    r = Reader(data)
    state = _registry(r, "registry state")
    r.end()
    return state


def decode_credential(data):
    r = Reader(data)
    state = _credential(r, "credential state")
    r.end()
    return state


def decode_status(data):
    r = Reader(data)
    said = r.primitive("said", "credential, said")
    issuer = r.primitive("identifier", "credential, issuer")
    reference = r.one_of(REFERENCES, 0, "credential, registry", "the byte about the registry")
    status = Status(
        said,
        issuer,
        reference,
        r.primitive("said", "credential, registry") if reference == "said" else None,
        r.perhaps("registry state", _registry),
        r.perhaps("credential state", _credential),
        r.perhaps("issuer prefix", lambda r, where: r.primitive("identifier", where)),
    )
    r.end()
    return status


def decode_image(data):
    """A ledger by its layout, and at which byte each registry and each credential starts. The reading rules are in rules.py."""
    r = Reader(data)
    starts = {"registry": [], "credential": []}

    def noted(kind, read):
        def at_place(r, where):
            starts[kind].append(r.at)
            return read(r, where)

        return at_place

    registries = r.section((0, MOST_REGISTRIES), "registries", noted("registry", _registry), 2, "registry")
    credentials = r.section((0, MOST_CREDENTIALS), "credentials", noted("credential", _credential), 2, "credential")
    r.end()
    return Ledger(registries, credentials), starts


def cut_frames(data):
    """The attempts of an input of the printed program that are there whole, and what is wrong with the input, or None.

    Each attempt comes with the byte of the input at which it starts.
    """
    r = Reader(data)
    frames = []
    try:
        n = r.number(2, "the count of attempts")
        for position in range(1, n + 1):
            length = r.number(2, f"attempt {position} of {n}, its length")
            frames.append((r.at, r.take(length, f"attempt {position} of {n}")))
        r.end()
    except Malformed as fault:
        return frames, fault
    return frames, None
