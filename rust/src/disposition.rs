//! What to do with an attempt that is refused.
use crate::report::Report;
use std::fmt;

/// What to do with an attempt that is refused.
#[derive(Debug, Clone, Copy, PartialEq, Eq)]
pub enum Disposition {
    /// It is never acceptable: drop it, or report it.
    Terminal,
    /// The place that it claims is taken: compare it with what is recorded.
    Contested,
    /// Keep it, and try again when evidence of this kind has come.
    Awaiting(EvidenceKind),
}

/// The evidence whose arrival can make an attempt acceptable. Of the source's kinds these are the ones that occur.
#[derive(Debug, Clone, Copy, PartialEq, Eq)]
pub enum EvidenceKind {
    /// The issue of the credential that is to be revoked.
    CredentialTelState,
    /// The registry that the event names.
    RegistryState,
    /// The key state of the registry's issuer.
    IssuerState,
    /// The source of the event, or the event of the issuer's key log that anchors it.
    KelAnchor,
    /// The events before this one.
    PriorEvents {
        /// The sn that comes next.
        expected_sn: u128,
    },
    /// More receipts of backers.
    BackerReceipts {
        /// How many backers have a good receipt.
        valid: usize,
        /// How many are needed.
        required: u32,
    },
    /// The event of the registry that the event's own seal names.
    TelAnchor {
        /// Its sn.
        sn: u128,
    },
}

impl EvidenceKind {
    /// The place of the kind in the source's list, from 1.
    pub fn number(self) -> u8 {
        match self {
            EvidenceKind::CredentialTelState => 2,
            EvidenceKind::RegistryState => 11,
            EvidenceKind::IssuerState => 12,
            EvidenceKind::KelAnchor => 13,
            EvidenceKind::PriorEvents { .. } => 14,
            EvidenceKind::BackerReceipts { .. } => 17,
            EvidenceKind::TelAnchor { .. } => 20,
        }
    }

    fn read(report: &Report) -> EvidenceKind {
        match report.awaited() {
            2 => EvidenceKind::CredentialTelState,
            11 => EvidenceKind::RegistryState,
            12 => EvidenceKind::IssuerState,
            13 => EvidenceKind::KelAnchor,
            14 => EvidenceKind::PriorEvents { expected_sn: report.value(0) },
            17 => EvidenceKind::BackerReceipts { valid: report.size(0), required: report.toad(1) },
            20 => EvidenceKind::TelAnchor { sn: report.value(0) },
            other => report.stranger("an evidence kind", other),
        }
    }
}

impl Disposition {
    /// The letter that stands for it: T, C or W. (The letter A stands for acceptance.)
    pub fn letter(self) -> char {
        match self {
            Disposition::Terminal => 'T',
            Disposition::Contested => 'C',
            Disposition::Awaiting(_) => 'W',
        }
    }

    pub(crate) fn read(report: &Report) -> Disposition {
        match report.letter() {
            b'T' => Disposition::Terminal,
            b'C' => Disposition::Contested,
            b'W' => Disposition::Awaiting(EvidenceKind::read(report)),
            other => report.stranger("a disposition", other),
        }
    }
}

impl fmt::Display for EvidenceKind {
    fn fmt(&self, f: &mut fmt::Formatter<'_>) -> fmt::Result {
        match self {
            EvidenceKind::CredentialTelState => f.write_str("the issue of the credential"),
            EvidenceKind::RegistryState => f.write_str("the registry's state"),
            EvidenceKind::IssuerState => f.write_str("the issuer's key state"),
            EvidenceKind::KelAnchor => f.write_str("the anchoring event of the issuer's key log"),
            EvidenceKind::PriorEvents { expected_sn } => write!(f, "the events before it, from sn {expected_sn} on"),
            EvidenceKind::BackerReceipts { valid, required } => {
                write!(f, "more good receipts of backers ({valid} of {required} are there)")
            }
            EvidenceKind::TelAnchor { sn } => write!(f, "the registry's event at sn {sn}"),
        }
    }
}

impl fmt::Display for Disposition {
    fn fmt(&self, f: &mut fmt::Formatter<'_>) -> fmt::Result {
        match self {
            Disposition::Terminal => f.write_str("it is never acceptable"),
            Disposition::Contested => f.write_str("its place is taken: compare it with what is recorded"),
            Disposition::Awaiting(kind) => write!(f, "awaiting {kind}"),
        }
    }
}
