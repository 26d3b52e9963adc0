"""Every number that a call can answer, in words: docs/RULES.md, "Refusals". tests/tool holds this table to the one there."""

from typing import NamedTuple

# What the letters tell the caller.
DISPOSITIONS = {
    "A": ("accepted", ""),
    "T": ("terminal", "it is never acceptable, so drop it or report it"),
    "C": ("contested", "the place that it claims is taken, so compare it with what is recorded"),
    "W": ("awaiting", "keep it and try again when evidence of the kind named has come"),
}

# The kinds of evidence that are awaited: the case's name in the Rust, and what that is.
AWAITED = {
    2: ("CredentialTelState", "the credential's accepted state under this registry: its iss or bis has not come"),
    11: ("RegistryState", "the registry's state: its vcp has not come"),
    12: ("IssuerState", "the issuer's accepted state, by its key event log"),
    13: ("KelAnchor", "the issuer's key event at the source's sn and said"),
    14: ("PriorEvents", "the events before this one"),
    17: ("BackerReceipts", "more receipts by backers"),
    20: ("TelAnchor", "the registry's own event, vcp or vrt, that the event's seal names"),
}

# Rules of refusal 24, and the list in which the position counts.
LIST_RULES = {
    1: ("duplicate backer", "backers"),
    2: ("duplicate cut", "cuts"),
    3: ("duplicate addition", "additions"),
    4: ("cut also added", "cuts"),
    5: ("cut not current", "cuts"),
    6: ("addition present", "additions"),
}

STANDINGS = {1: "Issued", 2: "Revoked", 3: "Unknown"}


class Refusal(NamedTuple):
    number: int
    # The case's name in the Rust. ' (added)' stands behind it where the Rust has no such case.
    title: str
    # The letters that it can have. 16 is awaiting where it is early, else contested.
    letters: str
    # The evidence kind awaited where the letter is W, else 0.
    awaits: int
    details: tuple
    when: str
    # What to look at, where the table of the rules only names another section or says little.
    more: str = ""

    @property
    def name(self):
        return self.title.removesuffix(" (added)")


REFUSALS = {
    row.number: row
    for row in (
        Refusal(0, "(accepted)", "A", 0, (), "no check fails"),
        Refusal(
            1, "Malformed (added)", "T", 0, (),
            '"Bytes", Malformed',
            "the bytes break the layout or a limit; `show` says at which byte and in which section; or the ledger that "
            "was handed in breaks a reading rule",
        ),
        Refusal(2, "MissingRegistry", "W", 11, (), "the ledger does not hold the registry that the attempt names"),
        Refusal(
            3, "DuplicateInception", "C", 0, (),
            "the ledger holds the registry that a vcp would create; or a vcp, whatever its said, is handed to the "
            "rotation fold",
        ),
        Refusal(4, "AlreadyIssued (added)", "C", 0, (), "the ledger holds the key of an iss or bis"),
        Refusal(5, "MissingCredentialState", "W", 2, (), "the ledger does not hold the key of a rev or brv"),
        Refusal(6, "NotRegistryInception", "T", 0, (), "the fold for a vcp gets another kind"),
        Refusal(7, "NotManagementRotation", "T", 0, (), "the fold for a vrt gets an iss, rev, bis or brv"),
        Refusal(8, "NotCredentialInception", "T", 0, (), "the fold for iss and bis gets another kind"),
        Refusal(9, "NotCredentialTransition", "T", 0, (), "the fold for rev and brv gets another kind"),
        Refusal(
            10, "InconsistentRegistry", "T", 0, (),
            "the held credential state's registry, the event's registry or the i of the event's own seal is not the "
            "registry's id; or there is no registry in the own seal of a brv, since the seal is not of kind 4 or its i "
            "is basic",
            "kind 4 is Event; look at the fields registry and seal",
        ),
        Refusal(11, "NoBackersWithBackers", "T", 0, (), "a vcp has the trait NoBackers and at least one backer"),
        Refusal(
            12, "SimpleEventOnBackerRegistry", "T", 0, (),
            "iss or rev, and the registry is not backerless",
            "a registry is backerless exactly when NoBackers is in its config; under any other a bis or brv is needed",
        ),
        Refusal(
            13, "BackedEventOnBackerlessRegistry", "T", 0, (),
            "bis or brv, and the registry is backerless",
            "NoBackers is in the registry's config; an iss or rev is needed",
        ),
        Refusal(
            14, "RotationOnBackerlessRegistry", "T", 0, (),
            "vrt, and the registry is backerless",
            "NoBackers is in the registry's config",
        ),
        Refusal(15, "SequenceNumberOverflow", "T", 0, (), "the state's sn is 2^128 - 1"),
        Refusal(
            16, "OutOfOrder", "WC", 14, ("expected", "actual"),
            "the event's sn (actual) is not the state's sn plus 1 (expected)",
            "a rev or brv has sn 1, so a second revocation meets expected 2, actual 1",
        ),
        Refusal(17, "PriorDigestMismatch", "T", 0, (), "the event's prior is not the state's latest (vrt) or head (rev, brv)"),
        Refusal(
            18, "MissingIssuer", "W", 12, (),
            'evidence Missing where Issuer is needed ("Evidence")',
            "vcp, vrt, iss and rev need evidence Issuer",
        ),
        Refusal(
            19, "InconsistentIssuer", "T", 0, (),
            'the evidence is of a wrong kind, or its prefix is not the issuer ("Evidence")',
            "vcp, vrt, iss and rev need evidence Issuer with the issuer's prefix; bis and brv never take it",
        ),
        Refusal(
            20, "MissingAnchor", "W", 13, (),
            'no source, or no anchoring event ("Anchoring events")',
            "vcp, bis and brv use the field anchor alone; vrt, iss and rev use evidence.anchor where it is there, else "
            "anchor",
        ),
        Refusal(
            21, "InconsistentAnchor", "T", 0, (),
            "the anchoring event's prefix, sn, said or seals differ from what they must be (\"Anchoring events\")",
            "its prefix is the issuer, its sn and said are the source's, and it has one seal alone: Event with i the "
            "registry (vcp, vrt) or the credential, s the event's sn, d the event's said",
        ),
        Refusal(
            22, "InconsistentManagement", "T", 0, (),
            'the own seal of a bis is not of kind 4; or the state in BackerAt differs ("Evidence")',
            "kind 4 is Event; the state in BackerAt has the registry's id, issuer and config, and the s and d of the "
            "event's own seal are its sn and latest",
        ),
        Refusal(
            23, "UnresolvedAnchor", "W", 20, ("s",),
            "a bis or brv with evidence Missing, or with Backer where the registry's present head is not s and d",
            "s and d are those of the event's own seal",
        ),
        Refusal(
            24, "BackerSet", "T", 0, ("rule", "position"),
            '"Lists of backers"',
            "the rules are 1 duplicate backer, 2 duplicate cut, 3 duplicate addition, 4 cut also added, 5 cut not "
            "current, 6 addition present; positions count from 0",
        ),
        Refusal(25, "TooManyBackers (added)", "T", 0, (), "more than 16 members after a rotation"),
        Refusal(
            26, "BackerThreshold", "T", 0, (),
            "`Toad::exact` refuses the toad; or `Toad::ample`, called by itself, would answer more than 4,294,967,295",
            "with no backers the toad is 0, else it is from 1 to their number",
        ),
        Refusal(
            27, "MissingBackerReceipts", "W", 17, ("valid", "required"),
            "fewer valid receipts than the toad",
            "an index counts once, if it is below the number of backers and has a good signature",
        ),
        Refusal(28, "InconsistentCredential", "T", 0, (), "the event's credential is not the held credential state's"),
        Refusal(
            29, "NoRoom (added)", "T", 0, (),
            "every other check has passed, and the ledger already holds 16 registries (vcp) or 256 credentials (iss, "
            "bis)",
        ),
        Refusal(
            30,
            "ShortBuffer (added)",
            "T",
            0,
            (),
            'the buffer is shorter than the image, or than the next state of a fold over bytes ("Host\'s calls")',
        ),
        Refusal(31, "MissingRegistry", "W", 11, (), "there is no registry state"),
        Refusal(32, "MissingCredentialState", "W", 2, (), "there is no credential state"),
        Refusal(33, "MissingIssuerState", "W", 12, (), "there is no issuer prefix"),
        Refusal(34, "MissingRegistryReference", "T", 0, (), "the byte about the credential's registry is 0 or 2"),
        Refusal(35, "RegistryMismatch", "T", 0, (), "the credential's registry is not the registry state's id"),
        Refusal(36, "IssuerMismatch", "T", 0, (), "the credential's issuer is not the registry state's"),
        Refusal(37, "IssuerStateMismatch", "T", 0, (), "the issuer prefix is not the credential's issuer"),
        Refusal(
            38, "CredentialStateMismatch", "T", 0, (),
            "the credential state's registry is not the registry state's id, or its credential is not the credential's "
            "said",
        ),
        Refusal(39, "Revoked", "T", 0, (), "the credential state's sn is not 0"),
    )
}
