//! The bytes of attempts, laid out from values: each kind byte for byte, their limits, and that no attempt made here is malformed.
mod common;

use common::world::*;
use jamfell::attempt::{
    decode, Attempt, Kind, Seal, Signature, Source, TelEvent, TelEvidence, TooMany, ATTEMPT_BYTES_MAX,
};
use jamfell::state::{ConfigTrait, RegistryState, REGISTRY_STATE_BYTES_MAX};
use jamfell::{Ledger, Refusal};

/// Bytes from pieces: a number is one byte, `E5` a said, `B5` a backer, `I` the issuer, `n5` a number of 16 bytes.
fn laid_out(text: &str) -> Vec<u8> {
    let piece = |word: &str| {
        let number = || word[1..].parse().unwrap();
        match word.as_bytes()[0] {
            b'E' => said(number()).as_bytes().to_vec(),
            b'B' => backer(number()).as_bytes().to_vec(),
            b'I' => issuer().as_bytes().to_vec(),
            b'n' => u128::from(number()).to_be_bytes().to_vec(),
            _ => vec![word.parse().unwrap()],
        }
    };
    text.split_whitespace().flat_map(piece).collect()
}

#[test]
fn each_event() {
    let vcp = vcp_of(said(1), 2, vec![ConfigTrait::EstOnly, ConfigTrait::DelegateIsDelegator], backers(7, 9));
    let other = bis_of(Seal::Opaque);
    for (event, expected) in [
        (vcp, "1  2 E1 I  1 n2  2 1 6  2 B7 B8  0  0"),
        (vrt(), "2  3 E6 E1 E1  2 n1 n3  0  1 B101  1 B104  0"),
        (iss(), "3  3 E4 E3 E2  0 0 0 0 0"),
        (rev(), "4  4 E5 E3 E2 E4  0 0 0 0 0"),
        (bis(), "5  3 E4 E3 E1  0 0 0 0  1 4 E1 n0 E1"),
        (other, "5  3 E4 E3 E1  0 0 0 0  1 8"),
        (brv(), "6  3 E5 E3 E4  0 0 0 0  1 4 E1 n0 E1"),
    ] {
        assert_eq!(event.to_bytes().unwrap(), laid_out(expected), "{expected}");
    }
}

#[test]
fn each_seal() {
    let seals = [Seal::Digest, Seal::Root, Seal::Source, Seal::Last, Seal::Back, Seal::Kind, Seal::Opaque];
    for (seal, byte) in seals.into_iter().zip([1, 2, 3, 5, 6, 7, 8]) {
        assert_eq!(bis_of(seal).to_bytes().unwrap().last(), Some(&byte));
    }
}

/// The sections behind the event.
fn behind(attempt: &Attempt) -> Vec<u8> {
    attempt.to_bytes().unwrap()[attempt.event.to_bytes().unwrap().len()..].to_vec()
}

#[test]
fn what_stands_behind_an_event() {
    let alone = Attempt::new(iss());
    assert_eq!(behind(&alone), laid_out("0  0  0  1 0"));
    let source = Attempt { source: Some(Source { sn: 4, said: said(7) }), ..alone.clone() };
    assert_eq!(behind(&source), laid_out("1 n4 E7  0  0  1 0"));
    let anchored = alone.clone().anchored_by(key_event(&iss()));
    assert_eq!(behind(&anchored), laid_out("1 n40 E7  1 I n40 E7  1 4 E3 n0 E4  0  1 0"));
    let signed = vec![Signature { index: 0x01020304, good: true }, Signature { index: 5, good: false }];
    assert_eq!(behind(&alone.clone().with_signatures(signed)), laid_out("0  0  2  1 2 3 4 1  0 0 0 5 0  1 0"));
}

/// Each kind is told, and bytes that end early, go on behind the end or begin with no kind are no attempt.
#[test]
fn each_kind_is_decoded() {
    use Kind::*;
    let kinds = [RegistryInception, RegistryRotation, Issue, Revoke, BackedIssue, BackedRevoke];
    let vcp = vcp_of(said(1), 2, vec![ConfigTrait::EstOnly], backers(7, 9));
    for (event, kind) in [vcp, vrt(), iss(), rev(), bis(), brv()].into_iter().zip(kinds) {
        let bytes = Attempt::new(event).to_bytes().unwrap();
        assert_eq!(decode(&bytes), Ok(kind));
        let malformed = |bytes: &[u8]| assert_eq!(decode(bytes).unwrap_err().refusal, Refusal::Malformed, "{kind:?}");
        (0..bytes.len()).for_each(|size| malformed(&bytes[..size]));
        malformed(&[&bytes[..], &[0]].concat());
        malformed(&[&[7], &bytes[1..]].concat());
    }
}

#[test]
fn each_evidence() {
    let with = |evidence| behind(&Attempt::new(iss()).with_evidence(evidence));
    assert_eq!(with(TelEvidence::Missing), laid_out("0 0 0  1 0"));
    let prefix = issuer();
    assert_eq!(with(TelEvidence::Issuer { prefix, anchor: None }), laid_out("0 0 0  1 1 I 0"));
    let anchor = Some(key_event(&rev()));
    let expected = laid_out("0 0 0  1 1 I 1 I n40 E7  1 4 E3 n1 E5");
    assert_eq!(with(TelEvidence::Issuer { prefix, anchor }), expected);
    assert_eq!(with(TelEvidence::Backer), laid_out("0 0 0  1 2"));
    let expected = laid_out("0 0 0  1 3  E1 I n5 E6  0 0 0 2  1 3  2 B7 B8");
    assert_eq!(with(TelEvidence::BackerAt { management: state() }), expected);
}

fn state() -> RegistryState {
    RegistryState {
        id: said(1),
        issuer: issuer(),
        sn: 5,
        latest: said(6),
        toad: 2,
        configs: vec![ConfigTrait::NoBackers],
        backers: backers(7, 9),
    }
}

#[test]
fn states_are_read_again() {
    let bytes = state().to_bytes().unwrap();
    assert_eq!(RegistryState::from_bytes(&bytes), Some(state()));
    for size in 0..bytes.len() {
        assert_eq!(RegistryState::from_bytes(&bytes[..size]), None);
    }
    assert_eq!(RegistryState::from_bytes(&[&bytes[..], &[0]].concat()), None);
}

/// A state with as many traits and backers as there can be, and with one more of either.
#[test]
fn limits_of_states() {
    let head = &state().to_bytes().unwrap()[..119];
    let lists = |configs: usize, backers: usize| {
        let backers_list: Vec<u8> = (0..backers).flat_map(|n| *backer(n as u32).as_bytes()).collect();
        [head, &[configs as u8], &vec![1; configs], &[backers as u8], &backers_list].concat()
    };
    let most = RegistryState { configs: vec![ConfigTrait::EstOnly; 8], backers: backers(0, 16), ..state() };
    assert_eq!(RegistryState::from_bytes(&lists(8, 16)), Some(most.clone()));
    assert_eq!(most.to_bytes().unwrap(), lists(8, 16));
    assert_eq!(most.to_bytes().unwrap().len(), REGISTRY_STATE_BYTES_MAX);
    assert_eq!(RegistryState::from_bytes(&lists(9, 16)), None);
    assert_eq!(RegistryState::from_bytes(&lists(8, 17)), None);
}

#[test]
fn limits() {
    let too_many = |what, count, limit| Err(TooMany { what, count, limit });
    let traits = |count| vcp_of(said(1), 0, vec![ConfigTrait::EstOnly; count], vec![]).to_bytes();
    assert!(traits(8).is_ok());
    assert_eq!(traits(9), too_many("config traits", 9, 8));
    let cuts = |count| vrt_of(1, 1, backers(0, count), vec![]).to_bytes();
    assert!(cuts(16).is_ok());
    assert_eq!(cuts(17), too_many("backers or cuts", 17, 16));
    let additions = |count| vrt_of(1, 1, vec![], backers(0, count)).to_bytes();
    assert!(additions(16).is_ok());
    assert_eq!(additions(300), too_many("additions", 300, 16));
    let signed = |count| Attempt::new(iss()).with_signatures(good(count)).to_bytes();
    assert!(signed(64).is_ok());
    assert_eq!(signed(65), too_many("signatures", 65, 64));
    let mut anchor = key_event(&iss());
    anchor.seals = vec![Seal::Last; 9];
    assert_eq!(Attempt::new(iss()).anchored_by(anchor).to_bytes(), too_many("seals", 9, 8));
    assert_eq!(signed(65).unwrap_err().to_string(), "65 signatures, and at most 64 are allowed");
}

/// A vrt with all that it can have.
fn longest() -> Attempt {
    let event = vrt_of(1, 1, backers(0, 16), backers(16, 32));
    let mut anchor = key_event(&event);
    anchor.seals = vec![event.seal(); 8];
    let evidence = TelEvidence::Issuer { prefix: issuer(), anchor: Some(anchor.clone()) };
    Attempt::new(event).anchored_by(anchor).with_signatures(good(64)).with_evidence(evidence)
}

#[test]
fn the_longest_attempt() {
    let bytes = longest().to_bytes().unwrap();
    assert_eq!(bytes.len(), ATTEMPT_BYTES_MAX);
    assert_eq!(Ledger::new().apply(&bytes).unwrap_err().refusal, Refusal::MissingRegistry);
    let longer = [&bytes[..], &[0]].concat();
    assert_eq!(Ledger::new().apply(&longer).unwrap_err().refusal, Refusal::Malformed);
}

/// Each kind with each evidence, with and without its other parts: none is malformed, and one byte less or more is.
#[test]
fn nothing_made_here_is_malformed() {
    let state = RegistryState { configs: vec![ConfigTrait::EstOnly; 8], backers: backers(0, 16), ..state() };
    for event in every_kind() {
        for evidence in [
            TelEvidence::Missing,
            TelEvidence::Issuer { prefix: said(9).into(), anchor: Some(key_event(&event)) },
            TelEvidence::Backer,
            TelEvidence::BackerAt { management: state.clone() },
        ] {
            let alone = Attempt::new(event.clone()).with_evidence(evidence);
            let whole = alone.clone().anchored_by(key_event(&event)).with_signatures(good(64));
            for attempt in [alone, whole] {
                let bytes = attempt.to_bytes().unwrap();
                assert_eq!(refusals(&bytes), (false, true, true), "{attempt:?}");
            }
        }
    }
}

/// Whether the attempt, one without its last byte, and one with a byte more are malformed.
fn refusals(bytes: &[u8]) -> (bool, bool, bool) {
    let malformed = |bytes: &[u8]| Ledger::new().apply(bytes).is_err_and(|refused| refused.number() == 1);
    (malformed(bytes), malformed(&bytes[..bytes.len() - 1]), malformed(&[bytes, &[0]].concat()))
}

/// What the anchoring event of each kind has to say.
#[test]
fn each_wanted_seal() {
    let wanted = |event: &TelEvent| event.seal();
    let seal = |i, s, d| Seal::Event { i: said(i).into(), s, d: said(d) };
    assert_eq!(wanted(&vcp()), seal(REGISTRY, 0, REGISTRY));
    assert_eq!(wanted(&vrt_of(9, 1, vec![], vec![])), seal(REGISTRY, 9, ROTATION));
    assert_eq!(wanted(&iss()), seal(CREDENTIAL, 0, ISSUE));
    assert_eq!(wanted(&bis()), seal(CREDENTIAL, 0, ISSUE));
    assert_eq!(wanted(&rev()), seal(CREDENTIAL, 1, REVOCATION));
    assert_eq!(wanted(&brv()), seal(CREDENTIAL, 1, REVOCATION));
}
