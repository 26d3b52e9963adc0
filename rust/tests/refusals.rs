//! Each refusal that the ledger can answer, met through the crate, with its details and its disposition, and in words.
mod common;

use common::world::*;
use jamfell::attempt::{Attempt, Seal, Signature, TelEvent, TelEvidence};
use jamfell::state::{ConfigTrait, RegistryState};
use jamfell::Disposition::{Awaiting, Contested, Terminal};
use jamfell::{Disposition, EvidenceKind, Ledger, Refusal, Refused, Rule};

/// Applies, and holds the ledger after a refusal to the one before.
fn apply(ledger: &mut Ledger, attempt: &Attempt) -> Result<(), Refused> {
    let before = ledger.to_image().unwrap();
    let answer = ledger.apply(&attempt.to_bytes().unwrap());
    assert_eq!(answer.is_ok(), before != ledger.to_image().unwrap());
    answer
}

#[track_caller]
fn refuses(ledger: &Ledger, attempt: Attempt, refusal: Refusal, disposition: Disposition) {
    let mut ledger = ledger.clone();
    assert_eq!(apply(&mut ledger, &attempt), Err(Refused { refusal, disposition }));
}

fn with_both() -> Ledger {
    ledger([vcp(), backerless()])
}

fn with_all() -> Ledger {
    ledger([vcp(), backerless(), iss(), bis()])
}

#[test]
fn each_kind_is_accepted() {
    let mut ledger = Ledger::new();
    for event in every_kind() {
        assert_eq!(apply(&mut ledger, &sound(event)), Ok(()));
    }
    assert_eq!((ledger.registry_count(), ledger.credential_count()), (2, 2));
}

#[test]
fn what_the_ledger_holds() {
    let missing = Awaiting(EvidenceKind::RegistryState);
    for event in [vrt(), iss(), rev(), bis(), brv()] {
        refuses(&Ledger::new(), sound(event), Refusal::MissingRegistry, missing);
    }
    refuses(&with_all(), sound(vcp()), Refusal::DuplicateInception, Contested);
    refuses(&with_all(), sound(iss()), Refusal::AlreadyIssued, Contested);
    refuses(&with_all(), sound(bis()), Refusal::AlreadyIssued, Contested);
    let missing = Awaiting(EvidenceKind::CredentialTelState);
    refuses(&with_both(), sound(rev()), Refusal::MissingCredentialState, missing);
    refuses(&with_both(), sound(brv()), Refusal::MissingCredentialState, missing);
}

#[test]
fn a_full_ledger() {
    let mut full = Ledger::new();
    filling().iter().for_each(|attempt| full.apply(attempt).unwrap());
    refuses(&full, sound(vcp()), Refusal::NoRoom, Terminal);
    refuses(&full, sound(iss()), Refusal::NoRoom, Terminal);
}

#[test]
fn backers_and_kinds_of_events() {
    let backed = vcp_of(said(50), 1, vec![ConfigTrait::NoBackers], backers(0, 1));
    refuses(&Ledger::new(), sound(backed), Refusal::NoBackersWithBackers, Terminal);
    let (credential, registry) = (said(CREDENTIAL), said(REGISTRY));
    let simple = TelEvent::Issue { said: said(ISSUE), credential, registry };
    refuses(&with_both(), sound(simple), Refusal::SimpleEventOnBackerRegistry, Terminal);
    let registry = said(BACKERLESS);
    let backed = TelEvent::BackedIssue { said: said(ISSUE), credential, registry, anchor: first_head() };
    refuses(&with_both(), sound(backed), Refusal::BackedEventOnBackerlessRegistry, Terminal);
    let (said, prior) = (said(ROTATION), registry);
    let rotation =
        TelEvent::RegistryRotation { said, registry, prior, sn: 1, toad: 0, cuts: vec![], additions: vec![] };
    refuses(&with_both(), sound(rotation), Refusal::RotationOnBackerlessRegistry, Terminal);
}

#[test]
fn the_order_of_events() {
    let at = |sn| sound(vrt_of(sn, 3, vec![], vec![]));
    let out_of_order = |actual| Refusal::OutOfOrder { expected: 1, actual };
    refuses(&with_both(), at(0), out_of_order(0), Contested);
    let gap = Awaiting(EvidenceKind::PriorEvents { expected_sn: 1 });
    for sn in [2, u128::from(u64::MAX) + 7, u128::MAX] {
        refuses(&with_both(), at(sn), out_of_order(sn), gap);
    }
    refuses(
        &ledger([backerless(), iss(), rev()]),
        sound(rev()),
        Refusal::OutOfOrder { expected: 2, actual: 1 },
        Contested,
    );
    let TelEvent::RegistryRotation { registry, said: of, .. } = vrt() else { unreachable!() };
    let (cuts, additions) = (vec![], vec![]);
    let other = TelEvent::RegistryRotation { said: of, registry, prior: said(50), sn: 1, toad: 3, cuts, additions };
    refuses(&with_both(), sound(other), Refusal::PriorDigestMismatch, Terminal);
}

/// A ledger whose first registry has this sn, which no run of events reaches. It can only come from an image.
fn at_sn(sn: u128) -> Ledger {
    let mut image = with_both().to_image().unwrap();
    image[2 + 66..2 + 82].copy_from_slice(&sn.to_be_bytes());
    Ledger::from_image(&image).unwrap()
}

#[test]
fn the_last_sn() {
    refuses(&at_sn(u128::MAX), sound(vrt()), Refusal::SequenceNumberOverflow, Terminal);
}

/// An sn has 128 bits, in either value.
#[test]
fn large_numbers() {
    let (expected, actual) = (0x0102030405060708_090a0b0c0d0e0f10, 0x1112131415161718_191a1b1c1d1e1f20);
    let attempt = |sn| sound(vrt_of(sn, 3, vec![], vec![]));
    let gap = Awaiting(EvidenceKind::PriorEvents { expected_sn: expected });
    refuses(&at_sn(expected - 1), attempt(actual), Refusal::OutOfOrder { expected, actual }, gap);
    let (expected, actual) = (actual, expected);
    refuses(&at_sn(expected - 1), attempt(actual), Refusal::OutOfOrder { expected, actual }, Contested);
}

#[test]
fn evidence_of_the_issuer() {
    let missing = Awaiting(EvidenceKind::IssuerState);
    let other = TelEvidence::Issuer { prefix: said(50).into(), anchor: None };
    for event in [vrt(), iss()] {
        let with = |evidence| sound(event.clone()).with_evidence(evidence);
        refuses(&with_both(), with(TelEvidence::Missing), Refusal::MissingIssuer, missing);
        refuses(&with_both(), with(TelEvidence::Backer), Refusal::InconsistentIssuer, Terminal);
        refuses(&with_both(), with(other.clone()), Refusal::InconsistentIssuer, Terminal);
    }
}

#[test]
fn anchoring_events() {
    let missing = Awaiting(EvidenceKind::KelAnchor);
    let without_source = Attempt { source: None, ..sound(iss()) };
    refuses(&with_both(), without_source, Refusal::MissingAnchor, missing);
    let without_anchor = Attempt { anchor: None, ..sound(iss()) };
    refuses(&with_both(), without_anchor, Refusal::MissingAnchor, missing);
    let mut anchor = key_event(&iss());
    anchor.seals.push(Seal::Last);
    refuses(&with_both(), sound(iss()).anchored_by(anchor), Refusal::InconsistentAnchor, Terminal);
    let anchor = key_event(&rev());
    refuses(&with_both(), sound(iss()).anchored_by(anchor), Refusal::InconsistentAnchor, Terminal);
}

/// The evidence's anchoring event counts for an iss, and not for a vcp.
#[test]
fn the_anchoring_event_in_the_evidence() {
    let with = |event: TelEvent| {
        let evidence = TelEvidence::Issuer { prefix: issuer(), anchor: Some(key_event(&event)) };
        Attempt { anchor: None, ..sound(event) }.with_evidence(evidence)
    };
    assert_eq!(apply(&mut with_both(), &with(iss())), Ok(()));
    let missing = Awaiting(EvidenceKind::KelAnchor);
    refuses(&Ledger::new(), with(vcp()), Refusal::MissingAnchor, missing);
}

fn management() -> RegistryState {
    RegistryState {
        id: said(REGISTRY),
        issuer: issuer(),
        sn: 0,
        latest: said(REGISTRY),
        toad: 3,
        configs: vec![],
        backers: backers(100, 104),
    }
}

#[test]
fn authority_of_a_backed_event() {
    let other = Seal::Event { i: said(50).into(), s: 0, d: said(REGISTRY) };
    refuses(&with_both(), sound(bis_of(other)), Refusal::InconsistentRegistry, Terminal);
    refuses(&with_all(), sound(brv_of(Seal::Digest)), Refusal::InconsistentRegistry, Terminal);
    refuses(&with_both(), sound(bis_of(Seal::Digest)), Refusal::InconsistentManagement, Terminal);
    let ahead = Seal::Event { i: said(REGISTRY).into(), s: 8, d: said(REGISTRY) };
    let unresolved = Refusal::UnresolvedAnchor { sn: 8 };
    let missing = Awaiting(EvidenceKind::TelAnchor { sn: 8 });
    refuses(&with_both(), sound(bis_of(ahead)), unresolved, missing);
    let backer_at = |management| sound(bis()).with_evidence(TelEvidence::BackerAt { management });
    let rotated = ledger([vcp(), vrt()]);
    assert_eq!(apply(&mut rotated.clone(), &backer_at(management())), Ok(()));
    let later = RegistryState { sn: 1, ..management() };
    refuses(&rotated, backer_at(later), Refusal::InconsistentManagement, Terminal);
}

#[test]
fn lists_of_backers() {
    let twice = |from| [backers(from, from + 2), backers(from, from + 1)].concat();
    let broken = |rule, at| Refusal::BackerSet { rule, at };
    let backed = vcp_of(said(50), 2, vec![], twice(0));
    refuses(&Ledger::new(), sound(backed), broken(Rule::DuplicateBacker, 2), Terminal);
    for (cuts, additions, refusal) in [
        (twice(100), vec![], broken(Rule::DuplicateCut, 2)),
        (vec![], twice(0), broken(Rule::DuplicateAddition, 2)),
        (backers(100, 102), backers(101, 103), broken(Rule::CutAddOverlap, 1)),
        (backers(102, 106), vec![], broken(Rule::RemovalNotCurrent, 2)),
        (vec![], backers(103, 106), broken(Rule::AdditionAlreadyPresent, 0)),
        (vec![], backers(0, 13), Refusal::TooManyBackers),
    ] {
        refuses(&with_both(), sound(vrt_of(1, 3, cuts, additions)), refusal, Terminal);
    }
    refuses(&with_both(), sound(vrt_of(1, 5, vec![], vec![])), Refusal::BackerThreshold, Terminal);
}

#[test]
fn receipts() {
    let signed = |signatures| sound(vcp()).with_signatures(signatures);
    let short = |valid| Refusal::MissingBackerReceipts { valid, required: 3 };
    let missing = |valid| Awaiting(EvidenceKind::BackerReceipts { valid, required: 3 });
    refuses(&Ledger::new(), signed(vec![]), short(0), missing(0));
    refuses(&Ledger::new(), signed(good(2)), short(2), missing(2));
    // One index twice, one that no backer has, and one that failed.
    let of = |index, good| Signature { index, good };
    let two = vec![of(0, true), of(0, true), of(4, true), of(u32::MAX, true), of(3, true), of(2, false)];
    refuses(&Ledger::new(), signed(two.clone()), short(2), missing(2));
    let three = [two, vec![of(2, true)]].concat();
    assert_eq!(apply(&mut Ledger::new(), &signed(three)), Ok(()));
}

#[test]
fn in_words() {
    let words = |ledger: &Ledger, event| ledger.clone().apply(&bytes(event)).unwrap_err().to_string();
    assert_eq!(
        words(&Ledger::new(), iss()),
        "2 MissingRegistry: the registry is unknown; awaiting the registry's state"
    );
    assert_eq!(
        words(&with_both(), vrt_of(4, 3, vec![], vec![])),
        "16 OutOfOrder: the event's sn is not the next one (expected 1, actual 4); awaiting the events before it, from sn 1 on"
    );
    assert_eq!(
        words(&with_both(), vrt_of(1, 3, backers(0, 1), vec![])),
        "24 BackerSet: a cut is no backer of the registry (position 0); it is never acceptable"
    );
    assert_eq!(
        words(&with_all(), iss()),
        "4 AlreadyIssued: the credential is there already; its place is taken: compare it with what is recorded"
    );
}
