"""What the bytes stand for, and the limits and names that bytes and text share (docs/RULES.md, "Event kinds" to "Bytes").

A primitive is held as its 33 bytes, a number as an int, a section of 0 or 1 element as None or the element, a list as a tuple.
"""

from typing import NamedTuple, Optional

KINDS = ("vcp", "vrt", "iss", "rev", "bis", "brv")
TRAITS = ("EstOnly", "DoNotDelegate", "NoBackers", "RegistrarBackers", "NoRegistrarBackers", "DelegateIsDelegator")
SEALS = ("Digest", "Root", "Source", "Event", "Last", "Back", "Kind", "Opaque")
EVIDENCES = ("Missing", "Issuer", "Backer", "BackerAt")
VERDICTS = ("failed", "good")
# The byte about a credential's registry in the input of `status`.
REFERENCES = ("none", "said", "block")

MOST_CONFIGS = 8
MOST_BACKERS = 16
MOST_SEALS = 8
MOST_SIGNATURES = 64
MOST_REGISTRIES = 16
MOST_CREDENTIALS = 256
MOST_ATTEMPTS = 65535
LONGEST_ATTEMPT = 65535

SN_END = 2**128
TOAD_END = 2**32
INDEX_END = 2**32

# Section 1 of an attempt. A vcp's issuer is an identifier, all else there is a said.
PRIMITIVES = {
    "vcp": ("said", "issuer"),
    "vrt": ("said", "registry", "prior"),
    "iss": ("said", "credential", "registry"),
    "rev": ("said", "credential", "registry", "prior"),
    "bis": ("said", "credential", "registry"),
    "brv": ("said", "credential", "prior"),
}
# Section 2.
NUMBERS = {"vcp": ("toad",), "vrt": ("sn", "toad"), "iss": (), "rev": (), "bis": (), "brv": ()}
# Sections 4 and 5: what their basic prefixes are, where a kind has any.
MEMBERS = {"vcp": ("backer", None), "vrt": ("cut", "addition")}
# Section 6.
SEALED = ("bis", "brv")


class Seal(NamedTuple):
    kind: str
    # Of an Event alone.
    i: Optional[bytes] = None
    s: Optional[int] = None
    d: Optional[bytes] = None


class Source(NamedTuple):
    sn: int
    said: bytes


class Anchor(NamedTuple):
    prefix: bytes
    sn: int
    said: bytes
    seals: tuple


class Signature(NamedTuple):
    index: int
    verdict: str


class Registry(NamedTuple):
    id: bytes
    issuer: bytes
    sn: int
    latest: bytes
    toad: int
    config: tuple
    backers: tuple


class Credential(NamedTuple):
    registry: bytes
    credential: bytes
    sn: int
    head: bytes


class Evidence(NamedTuple):
    kind: str
    # Of Issuer.
    prefix: Optional[bytes] = None
    anchor: Optional[Anchor] = None
    # Of BackerAt.
    state: Optional[Registry] = None


class Attempt(NamedTuple):
    kind: str
    primitives: tuple
    numbers: tuple
    config: tuple
    members: tuple
    additions: tuple
    seal: Optional[Seal]
    source: Optional[Source]
    anchor: Optional[Anchor]
    signatures: tuple
    evidence: Evidence

    def named(self, name):
        """The primitive or number of this name, or None where the kind has none."""
        pairs = zip(PRIMITIVES[self.kind] + NUMBERS[self.kind], self.primitives + self.numbers)
        return dict(pairs).get(name)


class Status(NamedTuple):
    said: bytes
    issuer: bytes
    reference: str
    # Where the reference is a said.
    registry: Optional[bytes]
    registry_state: Optional[Registry]
    credential_state: Optional[Credential]
    issuer_prefix: Optional[bytes]


class Ledger(NamedTuple):
    registries: tuple
    credentials: tuple
