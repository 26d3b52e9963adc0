//! The calls of the given Rust on decoded attempts, with its answers in the numbers of docs/RULES.md. Three things the Rust lacks stand
//! here: the position in refusal 24, refusal 25, and refusal 1, which the readers of `decode` give.
use crate::answer::{Answer, refused, status_refused};
use crate::decode::{Attempt, Evidence, Reference, StatusInput, inception};
use crate::keys::Keys;
use cesr::core::matter::code::DigestCode;
use cesr::core::matter::matter::Matter;
use cesr::core::primitives::{Number, Siger};
use keri::{
    CredentialState, CredentialVerifier, KeyStateSnapshot, RegistryRejection, RegistryState, SignedTel, TelAnchorCoordinate, TelEvidence,
};
use keri_events::{Acdc, AcdcField, BasicPrefix, Identifier, SadBlock, Said, TelEvent, Toad};
use std::borrow::Cow;

pub const MOST_BACKERS: usize = 16;

/// The backers by whom the receipts of an attempt are judged, where it comes to that.
pub fn governing<'s>(attempt: &'s Attempt<'_>, held: Option<&'s RegistryState>) -> Cow<'s, [BasicPrefix<'s>]> {
    match (&attempt.event, held, &attempt.evidence) {
        (TelEvent::RegistryInception(vcp), _, _) => Cow::Borrowed(vcp.backers()),
        (TelEvent::RegistryRotation(vrt), Some(state), _) => {
            let kept = state.backers().iter().filter(|b| !vrt.backer_cuts().contains(b));
            Cow::Owned(kept.chain(vrt.backer_additions()).cloned().collect())
        }
        (TelEvent::BackedIssue(_) | TelEvent::BackedRevoke(_), Some(state), Evidence::Backer) => Cow::Borrowed(state.backers()),
        (TelEvent::BackedIssue(_) | TelEvent::BackedRevoke(_), _, Evidence::BackerAt(state)) => Cow::Borrowed(state.backers()),
        _ => Cow::Borrowed(&[]),
    }
}

/// A key state that has this prefix: of all else in it the folds read nothing.
pub fn key_state(prefix: &Identifier<'_>) -> KeyStateSnapshot {
    let said = Said::new(Matter::from_parts(DigestCode::Blake3_256, Cow::Borrowed(&[3; 32][..])));
    KeyStateSnapshot::genesis(&inception(prefix.clone(), Number::new(0), said, vec![]))
}

/// The attempt as the Rust's folds take it: signed message and evidence.
pub fn handed<'a, T>(attempt: &'a Attempt<'a>, signatures: Vec<Siger<'a>>, fold: impl FnOnce(&SignedTel<'_>, &TelEvidence<'_>) -> T) -> T {
    let mut signed = SignedTel::from_host_asserted_parts(&attempt.event, attempt.body, vec![]).with_backer_sigs(signatures);
    if let Some((sn, said)) = &attempt.source {
        signed = signed.with_source(TelAnchorCoordinate::new(*sn, said.clone()));
    }
    if let Some(event) = &attempt.anchor {
        signed = signed.with_host_accepted_anchor(event);
    }
    match &attempt.evidence {
        Evidence::Missing => fold(&signed, &TelEvidence::Missing),
        Evidence::Backer => fold(&signed, &TelEvidence::Backer),
        Evidence::BackerAt(management) => fold(&signed, &TelEvidence::BackerAt { management }),
        Evidence::Issuer(prefix, anchor) => {
            let snapshot = key_state(prefix);
            fold(&signed, &TelEvidence::Issuer { state: &snapshot.view(), anchor: anchor.as_ref() })
        }
    }
}

/// The least position at which a rule about lists of backers is broken ("Lists of backers").
fn position(rule: u8, attempt: &Attempt<'_>, held: Option<&RegistryState>) -> usize {
    let repeats = |list: &[BasicPrefix<'_>]| (0..list.len()).find(|i| list[..*i].contains(&list[*i]));
    let found = match (&attempt.event, rule) {
        (TelEvent::RegistryRotation(vrt), 2..=6) => {
            let (cuts, additions) = (vrt.backer_cuts(), vrt.backer_additions());
            let current = held.expect("a rotation has a state").backers();
            match rule {
                2 => repeats(cuts),
                3 => repeats(additions),
                4 => cuts.iter().position(|c| additions.contains(c)),
                5 => cuts.iter().position(|c| !current.contains(c)),
                _ => additions.iter().position(|a| current.contains(a)),
            }
        }
        (_, 1) => repeats(&governing(attempt, held)),
        _ => None,
    };
    found.expect("the Rust names a rule that is broken")
}

fn told(error: &RegistryRejection, attempt: &Attempt<'_>, held: Option<&RegistryState>) -> Answer {
    refused(error, |rule| position(rule, attempt, held))
}

pub fn registry_incept<K: Keys>(attempt: &Attempt<'_>, keys: &K) -> Result<RegistryState, Answer> {
    let signatures = keys.signatures(attempt, None);
    handed(attempt, signatures, RegistryState::incept_with_evidence).map_err(|e| told(&e, attempt, None))
}

/// How many members a rotation leaves.
fn members(attempt: &Attempt<'_>, held: &RegistryState) -> usize {
    match &attempt.event {
        TelEvent::RegistryRotation(vrt) => {
            let kept = held.backers().iter().filter(|b| !vrt.backer_cuts().contains(b)).count();
            kept + vrt.backer_additions().len()
        }
        _ => 0,
    }
}

/// The Rust has no limit on the members after a rotation. Where there are more than 16, what it answers to a copy tells which checks
/// before 25 fail; 26 and 27 stand behind it.
pub fn registry_ingest<K: Keys>(held: &mut RegistryState, attempt: &Attempt<'_>, keys: &K) -> Result<(), Answer> {
    let signatures = keys.signatures(attempt, Some(held));
    if members(attempt, held) <= MOST_BACKERS {
        return handed(attempt, signatures, |signed, evidence| held.ingest_mut(signed, evidence))
            .map_err(|e| told(&e, attempt, Some(held)));
    }
    let mut copy = held.clone();
    let result = handed(attempt, signatures, |signed, evidence| copy.ingest_mut(signed, evidence));
    match result.map_err(|e| told(&e, attempt, Some(held))) {
        Ok(()) | Err(Answer { number: 26 | 27, .. }) => Err(Answer::terminal(25)),
        Err(answer) => Err(answer),
    }
}

pub fn credential_incept<K: Keys>(registry: &RegistryState, attempt: &Attempt<'_>, keys: &K) -> Result<CredentialState, Answer> {
    let signatures = keys.signatures(attempt, Some(registry));
    handed(attempt, signatures, |signed, evidence| CredentialState::incept(registry, signed, evidence))
        .map_err(|e| told(&e, attempt, Some(registry)))
}

pub fn credential_ingest<K: Keys>(
    registry: &RegistryState,
    held: &mut CredentialState,
    attempt: &Attempt<'_>,
    keys: &K,
) -> Result<(), Answer> {
    let signatures = keys.signatures(attempt, Some(registry));
    handed(attempt, signatures, |signed, evidence| held.ingest_mut(registry, signed, evidence))
        .map_err(|e| told(&e, attempt, Some(registry)))
}

pub fn status(input: &StatusInput<'_>) -> Answer {
    let reference = match &input.reference {
        Reference::Absent => None,
        Reference::Said(said) => Some(AcdcField::Said(said.clone())),
        Reference::Block => Some(AcdcField::Block(SadBlock::new_unchecked(Cow::Borrowed("{}")))),
    };
    let said = || input.said.clone();
    let acdc = Acdc::new_unchecked(said(), None, input.issuer.clone(), reference, AcdcField::Said(said()), None, None, None, None);
    let snapshot = input.issuer_state.as_ref().map(key_state);
    let issuer = snapshot.as_ref().map(KeyStateSnapshot::view);
    match CredentialVerifier::status(&acdc, input.registry.as_ref(), input.credential.as_ref(), issuer.as_ref()) {
        Ok(()) => Answer::accepted(&[]),
        Err(error) => status_refused(&error),
    }
}

pub fn exact(toad: u32, backers: usize) -> Answer {
    match Toad::exact(toad, backers) {
        Ok(passed) => {
            assert_eq!(passed.value(), toad);
            Answer::accepted(&[])
        }
        Err(error) => refused(&error.into(), |_| 0),
    }
}

pub fn ample(backers: usize) -> Answer {
    match Toad::ample(backers) {
        Ok(toad) => Answer::accepted(&[toad.value().into()]),
        Err(error) => refused(&error.into(), |_| 0),
    }
}
