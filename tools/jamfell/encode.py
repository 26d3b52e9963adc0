"""From values to bytes, by the layouts of docs/RULES.md, "Bytes" and "Image".

Values come from decode.py or from_text.py, and are within all limits.
"""

from .values import EVIDENCES, KINDS, REFERENCES, SEALS, TRAITS, VERDICTS


def _section(elements, width=1):
    return len(elements).to_bytes(width, "big") + b"".join(elements)


def _perhaps(element, encode):
    return _section([encode(element)] if element is not None else [])


def _sn(n):
    return n.to_bytes(16, "big")


def _config(traits):
    return _section([bytes([1 + TRAITS.index(trait)]) for trait in traits])


def _seal(seal):
    byte = bytes([1 + SEALS.index(seal.kind)])
    return byte + seal.i + _sn(seal.s) + seal.d if seal.kind == "Event" else byte


def _source(source):
    return _sn(source.sn) + source.said


def _anchor(anchor):
    return anchor.prefix + _sn(anchor.sn) + anchor.said + _section([_seal(seal) for seal in anchor.seals])


def _signature(signature):
    return signature.index.to_bytes(4, "big") + bytes([VERDICTS.index(signature.verdict)])


def encode_registry(state):
    fixed = state.id + state.issuer + _sn(state.sn) + state.latest + state.toad.to_bytes(4, "big")
    return fixed + _config(state.config) + _section(state.backers)


def encode_credential(state):
    return state.registry + state.credential + _sn(state.sn) + state.head


def _evidence(evidence):
    byte = bytes([EVIDENCES.index(evidence.kind)])
    if evidence.kind == "Issuer":
        return byte + evidence.prefix + _perhaps(evidence.anchor, _anchor)
    if evidence.kind == "BackerAt":
        return byte + encode_registry(evidence.state)
    return byte


def encode_attempt(attempt):
    sections = (
        _section(attempt.primitives),
        _section([_sn(n) for n in attempt.numbers]),
        _config(attempt.config),
        _section(attempt.members),
        _section(attempt.additions),
        _perhaps(attempt.seal, _seal),
        _perhaps(attempt.source, _source),
        _perhaps(attempt.anchor, _anchor),
        _section([_signature(signature) for signature in attempt.signatures]),
        _section([_evidence(attempt.evidence)]),
    )
    return bytes([1 + KINDS.index(attempt.kind)]) + b"".join(sections)


def encode_status(status):
    credential = status.said + status.issuer + bytes([REFERENCES.index(status.reference)]) + (status.registry or b"")
    states = _perhaps(status.registry_state, encode_registry) + _perhaps(status.credential_state, encode_credential)
    return credential + states + _perhaps(status.issuer_prefix, bytes)


def encode_image(ledger):
    registries = _section([encode_registry(state) for state in ledger.registries], width=2)
    return registries + _section([encode_credential(state) for state in ledger.credentials], width=2)


def join_frames(attempts):
    """The input of the printed program that has these attempts' bytes."""
    return len(attempts).to_bytes(2, "big") + b"".join(len(a).to_bytes(2, "big") + a for a in attempts)
