//! Why a call refuses.
use crate::credential_error::CredentialError;
use crate::disposition::Disposition;
use crate::report::Report;
use std::error::Error;
use std::fmt;

/// Why a call refuses, with the source's names (docs/RULES.md, "Refusals"). Those that the source lacks are said to be added.
#[derive(Debug, Clone, Copy, PartialEq, Eq)]
pub enum Refusal {
    /// 1, added: the bytes break a layout rule or a limit, or the ledger breaks a reading rule.
    Malformed,
    /// 2: the ledger does not hold the registry that the attempt names.
    MissingRegistry,
    /// 3: the registry is there already.
    DuplicateInception,
    /// 4, added: the ledger holds the credential already.
    AlreadyIssued,
    /// 5: the ledger does not hold the credential that is to be revoked.
    MissingCredentialState,
    /// 6: the fold for a vcp got another kind.
    NotRegistryInception,
    /// 7: the fold for a vrt got another kind.
    NotManagementRotation,
    /// 8: the fold for iss and bis got another kind.
    NotCredentialInception,
    /// 9: the fold for rev and brv got another kind.
    NotCredentialTransition,
    /// 10: a registry's id differs, or a brv's seal names none.
    InconsistentRegistry,
    /// 11: the trait NoBackers with backers.
    NoBackersWithBackers,
    /// 12: an iss or rev, and the registry has backers.
    SimpleEventOnBackerRegistry,
    /// 13: a bis or brv, and the registry is backerless.
    BackedEventOnBackerlessRegistry,
    /// 14: a vrt, and the registry is backerless.
    RotationOnBackerlessRegistry,
    /// 15: no sn follows the state's.
    SequenceNumberOverflow,
    /// 16: the event's sn is not the next one.
    OutOfOrder {
        /// The sn that comes next.
        expected: u128,
        /// The event's.
        actual: u128,
    },
    /// 17: the event's prior is not the last event.
    PriorDigestMismatch,
    /// 18: the issuer is needed as evidence, and there is none.
    MissingIssuer,
    /// 19: the evidence is of a wrong kind or names another issuer.
    InconsistentIssuer,
    /// 20: there is no source, or no anchoring event.
    MissingAnchor,
    /// 21: the anchoring event differs from what it must be.
    InconsistentAnchor,
    /// 22: the event's own seal is of another kind, or the registry state in the evidence differs.
    InconsistentManagement,
    /// 23: the registry's event that the event's own seal names is not at hand.
    UnresolvedAnchor {
        /// The sn that the seal names.
        sn: u128,
    },
    /// 24: a list of backers, of cuts or of additions breaks a rule.
    BackerSet {
        /// Which rule.
        rule: Rule,
        /// The position, from 0, of the first element that breaks it.
        at: usize,
    },
    /// 25, added: more than 16 backers after a rotation.
    TooManyBackers,
    /// 26: the toad does not fit the number of backers, or none fits 32 bits.
    BackerThreshold,
    /// 27: too few backers have a good receipt.
    MissingBackerReceipts {
        /// How many have.
        valid: usize,
        /// How many are needed.
        required: u32,
    },
    /// 28: the event is of another credential than the state.
    InconsistentCredential,
    /// 29, added: the ledger is full.
    NoRoom,
    /// 30, added: the buffer is too short.
    ShortBuffer,
    /// 31 to 39: why [`status`](crate::status::status) refuses. No other call answers these.
    Credential(CredentialError),
}

/// The rules on lists of backers (docs/RULES.md, "Lists of backers").
#[derive(Debug, Clone, Copy, PartialEq, Eq)]
pub enum Rule {
    /// 1: a backer stands twice in the list.
    DuplicateBacker,
    /// 2: a cut stands twice in the list.
    DuplicateCut,
    /// 3: an addition stands twice in the list.
    DuplicateAddition,
    /// 4: a cut is also added.
    CutAddOverlap,
    /// 5: a cut is no backer of the registry.
    RemovalNotCurrent,
    /// 6: an addition is a backer already.
    AdditionAlreadyPresent,
}

/// A refusal and what to do about it. It is the error of every call, and says both in words.
///
/// ```
/// use jamfell::Ledger;
/// let refused = Ledger::new().apply(b"").unwrap_err();
/// assert_eq!(refused.number(), 1);
/// assert_eq!(
///     refused.to_string(),
///     "1 Malformed: the bytes or the ledger break a layout rule or a limit; it is never acceptable"
/// );
/// ```
#[derive(Debug, Clone, Copy, PartialEq, Eq)]
pub struct Refused {
    /// Why the call refuses.
    pub refusal: Refusal,
    /// What to do with what was handed in.
    pub disposition: Disposition,
}

impl Refusal {
    /// The refusal's number, from 1 to 39.
    pub fn number(&self) -> u8 {
        self.row().0
    }

    /// The refusal's name.
    pub fn name(&self) -> &'static str {
        self.row().1
    }

    /// Number, name and words.
    #[rustfmt::skip]
    fn row(&self) -> (u8, &'static str, &'static str) {
        use Refusal::*;
        match self {
            Malformed => (1, "Malformed", "the bytes or the ledger break a layout rule or a limit"),
            MissingRegistry => (2, "MissingRegistry", "the registry is unknown"),
            DuplicateInception => (3, "DuplicateInception", "the registry is there already"),
            AlreadyIssued => (4, "AlreadyIssued", "the credential is there already"),
            MissingCredentialState => (5, "MissingCredentialState", "the credential is unknown"),
            NotRegistryInception => (6, "NotRegistryInception", "the event is no vcp"),
            NotManagementRotation => (7, "NotManagementRotation", "the event is no vrt"),
            NotCredentialInception => (8, "NotCredentialInception", "the event is no iss and no bis"),
            NotCredentialTransition => (9, "NotCredentialTransition", "the event is no rev and no brv"),
            InconsistentRegistry => (10, "InconsistentRegistry", "the event is of another registry"),
            NoBackersWithBackers => (11, "NoBackersWithBackers", "the trait NoBackers is set, and there are backers"),
            SimpleEventOnBackerRegistry => (12, "SimpleEventOnBackerRegistry", "the registry needs events with backers"),
            BackedEventOnBackerlessRegistry => (13, "BackedEventOnBackerlessRegistry", "the registry takes no events with backers"),
            RotationOnBackerlessRegistry => (14, "RotationOnBackerlessRegistry", "the registry has no backers to rotate"),
            SequenceNumberOverflow => (15, "SequenceNumberOverflow", "no sn follows the last"),
            OutOfOrder { .. } => (16, "OutOfOrder", "the event's sn is not the next one"),
            PriorDigestMismatch => (17, "PriorDigestMismatch", "the event's prior is not the last event"),
            MissingIssuer => (18, "MissingIssuer", "there is no evidence of the issuer"),
            InconsistentIssuer => (19, "InconsistentIssuer", "the evidence is of another kind or issuer"),
            MissingAnchor => (20, "MissingAnchor", "there is no source or no anchoring event"),
            InconsistentAnchor => (21, "InconsistentAnchor", "the anchoring event contradicts the event"),
            InconsistentManagement => (22, "InconsistentManagement", "the registry state contradicts the event's seal"),
            UnresolvedAnchor { .. } => (23, "UnresolvedAnchor", "the event's seal names an event that is not at hand"),
            BackerSet { rule, .. } => (24, "BackerSet", rule.words()),
            TooManyBackers => (25, "TooManyBackers", "there are more than 16 backers after the rotation"),
            BackerThreshold => (26, "BackerThreshold", "the toad does not fit the number of backers"),
            MissingBackerReceipts { .. } => (27, "MissingBackerReceipts", "too few backers have a good receipt"),
            InconsistentCredential => (28, "InconsistentCredential", "the event is of another credential"),
            NoRoom => (29, "NoRoom", "the ledger is full"),
            ShortBuffer => (30, "ShortBuffer", "the buffer is too short"),
            Credential(error) => error.row(),
        }
    }

    #[rustfmt::skip]
    fn read(report: &Report) -> Refusal {
        use Refusal::*;
        match report.number() {
            1 => Malformed,
            2 => MissingRegistry,
            3 => DuplicateInception,
            4 => AlreadyIssued,
            5 => MissingCredentialState,
            6 => NotRegistryInception,
            7 => NotManagementRotation,
            8 => NotCredentialInception,
            9 => NotCredentialTransition,
            10 => InconsistentRegistry,
            11 => NoBackersWithBackers,
            12 => SimpleEventOnBackerRegistry,
            13 => BackedEventOnBackerlessRegistry,
            14 => RotationOnBackerlessRegistry,
            15 => SequenceNumberOverflow,
            16 => OutOfOrder { expected: report.value(0), actual: report.value(1) },
            17 => PriorDigestMismatch,
            18 => MissingIssuer,
            19 => InconsistentIssuer,
            20 => MissingAnchor,
            21 => InconsistentAnchor,
            22 => InconsistentManagement,
            23 => UnresolvedAnchor { sn: report.value(0) },
            24 => BackerSet { rule: Rule::read(report), at: report.size(1) },
            25 => TooManyBackers,
            26 => BackerThreshold,
            27 => MissingBackerReceipts { valid: report.size(0), required: report.toad(1) },
            28 => InconsistentCredential,
            29 => NoRoom,
            30 => ShortBuffer,
            _ => Credential(CredentialError::read(report)),
        }
    }
}

impl Rule {
    const ALL: [Rule; 6] = [
        Rule::DuplicateBacker,
        Rule::DuplicateCut,
        Rule::DuplicateAddition,
        Rule::CutAddOverlap,
        Rule::RemovalNotCurrent,
        Rule::AdditionAlreadyPresent,
    ];

    /// The rule's number, from 1 to 6.
    pub fn number(self) -> u8 {
        self as u8 + 1
    }

    fn words(self) -> &'static str {
        match self {
            Rule::DuplicateBacker => "a backer stands twice in the list",
            Rule::DuplicateCut => "a cut stands twice in the list",
            Rule::DuplicateAddition => "an addition stands twice in the list",
            Rule::CutAddOverlap => "a cut is also added",
            Rule::RemovalNotCurrent => "a cut is no backer of the registry",
            Rule::AdditionAlreadyPresent => "an addition is a backer already",
        }
    }

    fn read(report: &Report) -> Rule {
        let number = report.size(0);
        let rule = Rule::ALL.get(number.wrapping_sub(1));
        *rule.unwrap_or_else(|| report.stranger("a rule on backers", number))
    }
}

impl Refused {
    /// The refusal's number, from 1 to 39.
    pub fn number(&self) -> u8 {
        self.refusal.number()
    }

    pub(crate) fn read(report: &Report) -> Refused {
        Refused { refusal: Refusal::read(report), disposition: Disposition::read(report) }
    }
}

impl fmt::Display for Refusal {
    fn fmt(&self, f: &mut fmt::Formatter<'_>) -> fmt::Result {
        let (number, name, words) = self.row();
        write!(f, "{number} {name}: {words}")?;
        match self {
            Refusal::OutOfOrder { expected, actual } => write!(f, " (expected {expected}, actual {actual})"),
            Refusal::UnresolvedAnchor { sn } => write!(f, " (sn {sn})"),
            Refusal::BackerSet { at, .. } => write!(f, " (position {at})"),
            Refusal::MissingBackerReceipts { valid, required } => write!(f, " ({valid} valid, {required} required)"),
            _ => Ok(()),
        }
    }
}

impl fmt::Display for Refused {
    fn fmt(&self, f: &mut fmt::Formatter<'_>) -> fmt::Result {
        write!(f, "{}; {}", self.refusal, self.disposition)
    }
}

impl Error for Refusal {}

impl Error for Refused {}
