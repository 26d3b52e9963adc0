//! What a call answers: the number, the disposition, the evidence kind awaited and the details, and the same as the 36 bytes of a report.
use keri::{CredentialError, Disposition, EvidenceKind, RegistryRejection, RegistryStructuralError, WitnessSetError};
use keri_events::MemberSetError;

#[derive(Clone, Copy, PartialEq, Eq, Debug)]
pub struct Answer {
    pub number: u8,
    pub letter: u8,
    pub awaits: u8,
    pub count: u8,
    pub values: [u128; 2],
}

pub const REPORT: usize = 36;

impl Answer {
    pub const fn accepted(values: &[u128]) -> Self {
        Self::made(0, b'A', 0, values)
    }

    pub const fn terminal(number: u8) -> Self {
        Self::made(number, b'T', 0, &[])
    }

    pub const fn contested(number: u8) -> Self {
        Self::made(number, b'C', 0, &[])
    }

    const fn made(number: u8, letter: u8, awaits: u8, values: &[u128]) -> Self {
        let first = if values.is_empty() { 0 } else { values[0] };
        let second = if values.len() < 2 { 0 } else { values[1] };
        Self { number, letter, awaits, count: values.len() as u8, values: [first, second] }
    }

    pub fn of(number: u8, disposition: Disposition, values: &[u128]) -> Self {
        match disposition {
            Disposition::Terminal => Self::made(number, b'T', 0, values),
            Disposition::Contested => Self::made(number, b'C', 0, values),
            Disposition::Awaiting(kind) => Self::made(number, b'W', place(kind, values), values),
        }
    }

    pub fn bytes(&self) -> [u8; REPORT] {
        let mut out = [0; REPORT];
        out[..4].copy_from_slice(&[self.number, self.letter, self.awaits, self.count]);
        out[4..20].copy_from_slice(&self.values[0].to_be_bytes());
        out[20..].copy_from_slice(&self.values[1].to_be_bytes());
        out
    }

    pub fn read(b: &[u8; REPORT]) -> Self {
        let value = |at: usize| u128::from_be_bytes(b[at..at + 16].try_into().expect("16 bytes"));
        Self { number: b[0], letter: b[1], awaits: b[2], count: b[3], values: [value(4), value(20)] }
    }
}

/// The place of the kind in the Rust's enum, from 1. What a kind carries has to be among the details.
fn place(kind: EvidenceKind, details: &[u128]) -> u8 {
    let (place, carried): (u8, Vec<u128>) = match kind {
        EvidenceKind::CredentialSchema => (1, vec![]),
        EvidenceKind::CredentialTelState => (2, vec![]),
        EvidenceKind::CredentialChain => (3, vec![]),
        EvidenceKind::IpexPrior => (4, vec![]),
        EvidenceKind::IpexSenderState => (5, vec![]),
        EvidenceKind::IpexCredential => (6, vec![]),
        EvidenceKind::IpexPathedProof => (7, vec![]),
        EvidenceKind::IpexAnchorState => (8, vec![]),
        EvidenceKind::DiscoverySignerState => (9, vec![]),
        EvidenceKind::DiscoverySubjectState => (10, vec![]),
        EvidenceKind::RegistryState => (11, vec![]),
        EvidenceKind::IssuerState => (12, vec![]),
        EvidenceKind::KelAnchor => (13, vec![]),
        EvidenceKind::PriorEvents { expected_sn } => (14, vec![expected_sn]),
        EvidenceKind::Signatures => (15, vec![]),
        EvidenceKind::WitnessReceipts { valid, required } => (16, vec![valid as u128, required.into()]),
        EvidenceKind::BackerReceipts { valid, required } => (17, vec![valid as u128, required.into()]),
        EvidenceKind::DelegationEvidence => (18, vec![]),
        EvidenceKind::ReceiptorEstablishment => (19, vec![]),
        EvidenceKind::TelAnchor { sn } => (20, vec![sn]),
    };
    assert!(details.starts_with(&carried), "the kind awaited carries {carried:?}, the refusal {details:?}");
    place
}

/// The rule of refusal 24 that the Rust names.
pub fn rule(error: &WitnessSetError) -> u8 {
    match error {
        WitnessSetError::Membership(MemberSetError::Duplicate { set: "backers" }) => 1,
        WitnessSetError::Membership(MemberSetError::Duplicate { set: "backer cuts" }) => 2,
        WitnessSetError::Membership(MemberSetError::Duplicate { set: "backer additions" }) => 3,
        WitnessSetError::Membership(MemberSetError::CutAddOverlap { .. }) => 4,
        WitnessSetError::RemovalNotCurrent => 5,
        WitnessSetError::AdditionAlreadyPresent => 6,
        WitnessSetError::Membership(other) => panic!("{other:?} is no rule about backers"),
    }
}

/// A refusal of the Rust in the numbers of docs/RULES.md. The Rust gives no position for 24: it is handed in.
pub fn refused(error: &RegistryRejection, position: impl FnOnce(u8) -> usize) -> Answer {
    use RegistryRejection as E;
    use RegistryStructuralError as S;
    let d = error.disposition();
    match error {
        E::MissingRegistry => Answer::of(2, d, &[]),
        E::DuplicateInception => Answer::of(3, d, &[]),
        E::Structural(S::NotRegistryInception) => Answer::of(6, d, &[]),
        E::Structural(S::NotManagementRotation) => Answer::of(7, d, &[]),
        E::Structural(S::NotCredentialInception) => Answer::of(8, d, &[]),
        E::Structural(S::NotCredentialTransition) => Answer::of(9, d, &[]),
        E::InconsistentRegistry => Answer::of(10, d, &[]),
        E::Structural(S::NoBackersWithBackers) => Answer::of(11, d, &[]),
        E::Structural(S::SimpleEventOnBackerRegistry) => Answer::of(12, d, &[]),
        E::Structural(S::BackedEventOnBackerlessRegistry) => Answer::of(13, d, &[]),
        E::Structural(S::RotationOnBackerlessRegistry) => Answer::of(14, d, &[]),
        E::Structural(S::SequenceNumberOverflow) => Answer::of(15, d, &[]),
        E::OutOfOrder { expected, actual } => Answer::of(16, d, &[*expected, *actual]),
        E::PriorDigestMismatch => Answer::of(17, d, &[]),
        E::MissingIssuer => Answer::of(18, d, &[]),
        E::InconsistentIssuer => Answer::of(19, d, &[]),
        E::MissingAnchor => Answer::of(20, d, &[]),
        E::InconsistentAnchor => Answer::of(21, d, &[]),
        E::InconsistentManagement => Answer::of(22, d, &[]),
        E::UnresolvedAnchor { sn } => Answer::of(23, d, &[*sn]),
        E::BackerSet(set) => Answer::of(24, d, &[rule(set).into(), position(rule(set)) as u128]),
        E::BackerThreshold(_) => Answer::of(26, d, &[]),
        E::MissingBackerReceipts { valid, required } => Answer::of(27, d, &[*valid as u128, (*required).into()]),
        E::InconsistentCredential => Answer::of(28, d, &[]),
        other => panic!("{other:?} has no number"),
    }
}

pub fn status_refused(error: &CredentialError) -> Answer {
    use CredentialError as E;
    let number = match error {
        E::MissingRegistry => 31,
        E::MissingCredentialState => 32,
        E::MissingIssuerState => 33,
        E::MissingRegistryReference => 34,
        E::RegistryMismatch => 35,
        E::IssuerMismatch => 36,
        E::IssuerStateMismatch => 37,
        E::CredentialStateMismatch => 38,
        E::Revoked => 39,
    };
    Answer::of(number, error.disposition(), &[])
}
