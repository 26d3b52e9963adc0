"""From values to text: a line for the header, and under it a line for each field, in the order of the bytes.

from_text.py reads all that is written here, and makes the same bytes of it.
"""

from .values import MEMBERS, NUMBERS, PRIMITIVES

# So many bytes of an attempt that is no attempt stand in one line.
RAW_LINE = 32


class _Fields:
    def __init__(self, names):
        self.names = names
        self.lines = []

    def add(self, field, *words):
        shown = [self.names.whole(word) if isinstance(word, bytes) else str(word) for word in words]
        self.lines.append((field, " ".join(shown)))

    def each(self, field, values):
        for value in values:
            self.add(field, value)

    def text(self, header):
        widest = max((len(field) for field, _ in self.lines), default=0)
        return "".join([f"{header}\n"] + [f"  {field:{widest}}  {value}\n" for field, value in self.lines])


def _add_seal(fields, field, seal):
    fields.add(field, *(value for value in seal if value is not None))


def _add_anchor(fields, field, anchor):
    if anchor is None:
        return
    fields.add(field, anchor.prefix, anchor.sn, anchor.said)
    for seal in anchor.seals:
        _add_seal(fields, f"{field}.seal", seal)


def _add_registry(fields, state, under=""):
    for name in ("id", "issuer", "sn", "latest", "toad"):
        fields.add(under + name, getattr(state, name))
    fields.each(f"{under}config", state.config)
    fields.each(f"{under}backer", state.backers)


def _add_credential(fields, state, under=""):
    for name, value in zip(state._fields, state):
        fields.add(under + name, value)


def _add_evidence(fields, evidence):
    if evidence.kind == "Issuer":
        fields.add("evidence", evidence.kind, evidence.prefix)
        _add_anchor(fields, "evidence.anchor", evidence.anchor)
        return
    fields.add("evidence", evidence.kind)
    if evidence.kind == "BackerAt":
        _add_registry(fields, evidence.state, "evidence.")


def attempt_text(attempt, names):
    fields = _Fields(names)
    for name, value in zip(PRIMITIVES[attempt.kind], attempt.primitives):
        fields.add(name, value)
    for name, value in zip(NUMBERS[attempt.kind], attempt.numbers):
        fields.add(name, value)
    fields.each("config", attempt.config)
    first, second = MEMBERS.get(attempt.kind, (None, None))
    fields.each(first, attempt.members)
    fields.each(second, attempt.additions)
    if attempt.seal is not None:
        _add_seal(fields, "seal", attempt.seal)
    if attempt.source is not None:
        fields.add("source", attempt.source.sn, attempt.source.said)
    _add_anchor(fields, "anchor", attempt.anchor)
    for signature in attempt.signatures:
        fields.add("signature", signature.index, signature.verdict)
    _add_evidence(fields, attempt.evidence)
    return fields.text(f"attempt {attempt.kind}")


def raw_text(data):
    """Bytes that are no attempt, as they are."""
    lines = [f"  bytes  {data[at : at + RAW_LINE].hex()}\n" for at in range(0, len(data), RAW_LINE)]
    return "".join(["attempt raw\n"] + lines)


def registry_text(state, names):
    fields = _Fields(names)
    _add_registry(fields, state)
    return fields.text("registry-state")


def credential_text(state, names):
    fields = _Fields(names)
    _add_credential(fields, state)
    return fields.text("credential-state")


def status_text(status, names):
    fields = _Fields(names)
    fields.add("said", status.said)
    fields.add("issuer", status.issuer)
    fields.add("registry", status.registry if status.reference == "said" else status.reference)
    if status.registry_state is not None:
        _add_registry(fields, status.registry_state, "registry-state.")
    if status.credential_state is not None:
        _add_credential(fields, status.credential_state, "credential-state.")
    if status.issuer_prefix is not None:
        fields.add("issuer-prefix", status.issuer_prefix)
    return fields.text("status")
