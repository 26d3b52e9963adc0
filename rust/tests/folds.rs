//! The folds over bytes, `status`, and the thresholds: what they answer, what they write, and what they leave.
mod common;

use common::lent::Side;
use common::raw::{Answer, Host, EMPTY};
use common::world::*;
use common::Random;
use jamfell::attempt::TelEvent;
use jamfell::folds::{credential_incept, credential_ingest, registry_incept, registry_ingest};
use jamfell::state::{CredentialState, RegistryState, REGISTRY_STATE_BYTES_MAX};
use jamfell::{Ledger, Refused};

/// What a fold leaves, as bytes of their own.
fn state(fold: impl FnOnce(&mut [u8]) -> Result<usize, Refused>) -> Vec<u8> {
    let mut next = vec![EMPTY; REGISTRY_STATE_BYTES_MAX + 9];
    let size = fold(&mut next).unwrap();
    assert!(next[size..].iter().all(|byte| *byte == EMPTY));
    next.truncate(size);
    next
}

fn registry() -> Vec<u8> {
    state(|next| registry_incept(&bytes(vcp()), next))
}

fn without_backers() -> Vec<u8> {
    state(|next| registry_incept(&bytes(backerless()), next))
}

fn issued() -> Vec<u8> {
    state(|next| credential_incept(&without_backers(), &bytes(iss()), next))
}

/// The two sections of the image that a ledger has of these states.
fn image(registries: &[&[u8]], rows: &[&[u8]]) -> Vec<u8> {
    let section = |states: &[&[u8]]| [&(states.len() as u16).to_be_bytes(), &states.concat()[..]].concat();
    [section(registries), section(rows)].concat()
}

/// The folds leave the states that the ledger holds after the same attempts.
#[test]
fn as_the_ledger_does() {
    let image_of = |events: &[TelEvent]| ledger(events.iter().cloned()).to_image().unwrap();
    assert_eq!(image_of(&[vcp()]), image(&[&registry()], &[]));
    let rotated = state(|next| registry_ingest(&registry(), &bytes(vrt()), next));
    assert_eq!(image_of(&[vcp(), vrt()]), image(&[&rotated], &[]));
    assert_eq!(image_of(&[backerless(), iss()]), image(&[&without_backers()], &[&issued()]));
    let revoked = state(|next| credential_ingest(&without_backers(), &issued(), &bytes(rev()), next));
    assert_eq!(image_of(&[backerless(), iss(), rev()]), image(&[&without_backers()], &[&revoked]));
    let backed = state(|next| credential_incept(&registry(), &bytes(bis()), next));
    let revoked = state(|next| credential_ingest(&registry(), &backed, &bytes(brv()), next));
    assert_eq!(image_of(&[vcp(), bis(), brv()]), image(&[&registry()], &[&revoked]));
}

#[test]
fn states_of_the_folds_as_values() {
    let rotated = state(|next| registry_ingest(&registry(), &bytes(vrt()), next));
    let value = RegistryState::from_bytes(&rotated).unwrap();
    assert_eq!(value.to_bytes().unwrap(), rotated);
    assert_eq!(value.backers, [backer(100), backer(102), backer(103), backer(104)]);
    assert_eq!((value.sn, value.latest, value.toad), (1, said(ROTATION), 3));
    let value = CredentialState::from_bytes(&issued()).unwrap();
    let expected =
        CredentialState { registry: said(BACKERLESS), credential: said(CREDENTIAL), sn: 0, head: said(ISSUE) };
    assert_eq!(value, expected);
    assert_eq!(value.to_bytes(), issued());
}

/// Every kind to every fold: only its own fold takes it.
#[test]
fn each_fold_takes_its_kinds() {
    let mut host = Host::new(Side::Start);
    let (registry, without, issued) = (registry(), without_backers(), issued());
    let numbers = every_kind().map(|event| {
        let attempt = bytes(event);
        [
            host.registry_incept(&attempt, 700).0.number,
            host.registry_ingest(&registry, &attempt, 700).0.number,
            host.credential_incept(&without, &attempt, 115).0.number,
            host.credential_ingest([&without, &issued], &attempt, 115).0.number,
        ]
    });
    let (vcp, other) = ([0, 3, 8, 9], [0, 3, 8, 9]);
    let (iss, rev) = ([6, 7, 0, 9], [6, 7, 8, 0]);
    let (bis, brv, vrt) = ([19, 7, 10, 9], [19, 7, 8, 10], [6, 0, 8, 9]);
    assert_eq!(numbers, [vcp, other, iss, rev, bis, brv, vrt]);
}

#[test]
fn the_state_of_another() {
    let mut host = Host::new(Side::End);
    let (registry, without) = (registry(), without_backers());
    let mut other = issued();
    other[34] ^= 1;
    assert_eq!(host.credential_ingest([&without, &other], &bytes(rev()), 115).0.number, 28);
    assert_eq!(host.credential_ingest([&registry, &issued()], &bytes(rev()), 115).0.number, 10);
    let mut last = issued();
    last[66..82].fill(0xff);
    assert_eq!(host.credential_ingest([&without, &last], &bytes(rev()), 115).0.number, 15);
}

/// Whether a fold refuses every buffer that is too short for its state and takes every other, up to so many bytes. None is written in
/// part (as `Host` holds it to).
fn needs(most: usize, expected: &[u8], mut fold: impl FnMut(usize) -> (Answer, Vec<u8>)) {
    let size = expected.len();
    for room in 0..most {
        let (answer, out) = fold(room);
        assert_eq!(answer.number, if room < size { 30 } else { 0 });
        if answer.number == 0 {
            assert_eq!(answer.values, [size as u128]);
            assert_eq!(out[..size], *expected);
            assert!(out[size..].iter().all(|byte| *byte == EMPTY));
        }
    }
}

#[test]
fn buffers_of_each_length() {
    let (registry, without, issued) = (registry(), without_backers(), issued());
    let rotated = state(|next| registry_ingest(&registry, &bytes(vrt()), next));
    let revoked = state(|next| credential_ingest(&without, &issued, &bytes(rev()), next));
    for side in [Side::Start, Side::End] {
        let mut host = Host::new(side);
        needs(300, &registry, |room| host.registry_incept(&bytes(vcp()), room));
        needs(300, &rotated, |room| host.registry_ingest(&registry, &bytes(vrt()), room));
        needs(200, &issued, |room| host.credential_incept(&without, &bytes(iss()), room));
        needs(200, &revoked, |room| host.credential_ingest([&without, &issued], &bytes(rev()), room));
    }
}

/// A state of each length but its own, and with each letter wrong.
#[test]
fn states_that_are_none() {
    let mut host = Host::new(Side::End);
    let (registry, without, issued) = (registry(), without_backers(), issued());
    for size in 0..registry.len() {
        assert_eq!(host.registry_ingest(&registry[..size], &bytes(vrt()), 700).0.number, 1);
    }
    for size in 0..issued.len() {
        assert_eq!(host.credential_ingest([&without, &issued[..size]], &bytes(rev()), 115).0.number, 1);
    }
    let longer = |state: &[u8]| [state, &[0]].concat();
    assert_eq!(host.registry_ingest(&longer(&registry), &bytes(vrt()), 700).0.number, 1);
    assert_eq!(host.credential_incept(&longer(&without), &bytes(iss()), 115).0.number, 1);
    assert_eq!(host.credential_ingest([&without, &longer(&issued)], &bytes(rev()), 115).0.number, 1);
    for at in [0, 33, 82] {
        let mut other = registry.clone();
        other[at] = b'A';
        assert_eq!(host.registry_ingest(&other, &bytes(vrt()), 700).0.number, 1);
    }
}

/// Whatever the bytes are, there is a proper answer (as `Host` holds it to), and the reader of this crate agrees on what is a state.
#[test]
fn bytes_at_random() {
    let mut random = Random::new(7);
    let mut host = Host::new(Side::End);
    let (registry, without, issued) = (registry(), without_backers(), issued());
    for _ in 0..5000 {
        let mut damage = |bytes: &[u8]| {
            let mut bytes = bytes.to_vec();
            let at = random.below(bytes.len());
            bytes[at] = random.next() as u8;
            bytes
        };
        let (state, row) = (damage(&registry), damage(&issued));
        let number = host.registry_ingest(&state, &bytes(vrt()), 700).0.number;
        assert_eq!(number == 1, RegistryState::from_bytes(&state).is_none());
        let number = host.credential_ingest([&without, &row], &bytes(rev()), 115).0.number;
        assert_eq!(number == 1, CredentialState::from_bytes(&row).is_none());
        let attempt = damage(&bytes(vcp()));
        let fold = host.registry_incept(&attempt, 700).0;
        let applied = Ledger::new().apply(&attempt).map_or_else(|refused| refused.number(), |()| 0);
        if attempt[0] == 1 {
            assert_eq!(fold.number, applied);
        }
    }
}

#[test]
fn thresholds() {
    let mut host = Host::new(Side::Start);
    for (toad, backers, number) in
        [(0, 0, 0), (1, 0, 26), (0, 1, 26), (16, 16, 0), (17, 16, 26), (u32::MAX, usize::MAX, 0), (u32::MAX, 1, 26)]
    {
        assert_eq!(host.exact(toad, backers).number, number);
        assert_eq!(jamfell::exact(toad, backers).is_ok(), number == 0);
    }
    for (backers, toad) in [(0, 0), (1, 1), (2, 2), (3, 3), (4, 3), (6, 4), (7, 5), (10, 7), (16, 11)] {
        assert_eq!(host.ample(backers).values, [toad]);
        assert_eq!(jamfell::ample(backers).map(u128::from), Ok(toad));
    }
    assert_eq!(host.ample(usize::MAX).number, 26);
}

/// The largest number of backers whose toad fits 32 bits.
#[test]
fn the_last_toad() {
    let (mut fits, mut over) = (0, usize::MAX);
    while over - fits > 1 {
        let middle = fits + (over - fits) / 2;
        match jamfell::ample(middle) {
            Ok(_) => fits = middle,
            Err(_) => over = middle,
        }
    }
    assert_eq!(jamfell::ample(fits), Ok(u32::MAX));
    assert_eq!(jamfell::ample(over).unwrap_err().refusal, jamfell::Refusal::BackerThreshold);
}
