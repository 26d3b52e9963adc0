//! Sound attempts of every kind, to be taken as they are or broken.
use jamfell::attempt::{AnchoringEvent, Attempt, Seal, Signature, TelEvent, TelEvidence};
use jamfell::state::ConfigTrait;
use jamfell::{BasicPrefix, Identifier, Key, Ledger, Said};

/// A said that a number names.
pub fn said(number: u32) -> Said {
    Said::new(b'E', filled(number)).unwrap()
}

/// The prefix of a backer that a number names.
pub fn backer(number: u32) -> BasicPrefix {
    BasicPrefix::new(b'B', filled(number)).unwrap()
}

fn filled(number: u32) -> [u8; 32] {
    let mut bytes = [0; 32];
    bytes[..4].copy_from_slice(&number.to_be_bytes());
    bytes
}

/// The prefixes of backers from one number to before another.
pub fn backers(from: u32, to: u32) -> Vec<BasicPrefix> {
    (from..to).map(backer).collect()
}

pub fn issuer() -> Identifier {
    BasicPrefix::new(b'D', [9; 32]).unwrap().into()
}

pub const REGISTRY: u32 = 1;
pub const BACKERLESS: u32 = 2;
pub const CREDENTIAL: u32 = 3;
pub const ISSUE: u32 = 4;
pub const REVOCATION: u32 = 5;
pub const ROTATION: u32 = 6;
pub const KEY_EVENT: u32 = 7;

/// The backers of the registry are 100 to 103, and 3 of them have to sign.
pub fn vcp() -> TelEvent {
    vcp_of(said(REGISTRY), 3, vec![], backers(100, 104))
}

pub fn vcp_of(said: Said, toad: u32, configs: Vec<ConfigTrait>, backers: Vec<BasicPrefix>) -> TelEvent {
    TelEvent::RegistryInception { said, issuer: issuer(), toad, configs, backers }
}

pub fn backerless() -> TelEvent {
    vcp_of(said(BACKERLESS), 0, vec![ConfigTrait::NoBackers], vec![])
}

/// Backer 101 goes, 104 comes.
pub fn vrt() -> TelEvent {
    vrt_of(1, 3, backers(101, 102), backers(104, 105))
}

pub fn vrt_of(sn: u128, toad: u32, cuts: Vec<BasicPrefix>, additions: Vec<BasicPrefix>) -> TelEvent {
    let registry = said(REGISTRY);
    TelEvent::RegistryRotation { said: said(ROTATION), registry, prior: registry, sn, toad, cuts, additions }
}

pub fn iss() -> TelEvent {
    TelEvent::Issue { said: said(ISSUE), credential: said(CREDENTIAL), registry: said(BACKERLESS) }
}

pub fn rev() -> TelEvent {
    let (credential, registry) = (said(CREDENTIAL), said(BACKERLESS));
    TelEvent::Revoke { said: said(REVOCATION), credential, registry, prior: said(ISSUE) }
}

/// The seal of the registry's vcp.
pub fn first_head() -> Seal {
    Seal::Event { i: said(REGISTRY).into(), s: 0, d: said(REGISTRY) }
}

pub fn bis() -> TelEvent {
    bis_of(first_head())
}

pub fn bis_of(anchor: Seal) -> TelEvent {
    TelEvent::BackedIssue { said: said(ISSUE), credential: said(CREDENTIAL), registry: said(REGISTRY), anchor }
}

pub fn brv() -> TelEvent {
    brv_of(first_head())
}

pub fn brv_of(anchor: Seal) -> TelEvent {
    TelEvent::BackedRevoke { said: said(REVOCATION), credential: said(CREDENTIAL), prior: said(ISSUE), anchor }
}

/// One of each kind, in an order in which all are accepted.
pub fn every_kind() -> [TelEvent; 7] {
    [vcp(), backerless(), iss(), rev(), bis(), brv(), vrt()]
}

pub fn key_event(event: &TelEvent) -> AnchoringEvent {
    AnchoringEvent { prefix: issuer(), sn: 40, said: said(KEY_EVENT), seals: vec![event.seal()] }
}

/// Good signatures of the first so many backers.
pub fn good(count: u32) -> Vec<Signature> {
    (0..count).map(|index| Signature { index, good: true }).collect()
}

/// The event with all that it needs to be accepted: its anchoring event, 16 good signatures, and evidence.
pub fn sound(event: TelEvent) -> Attempt {
    let evidence = match event {
        TelEvent::BackedIssue { .. } | TelEvent::BackedRevoke { .. } => TelEvidence::Backer,
        _ => TelEvidence::Issuer { prefix: issuer(), anchor: None },
    };
    let anchor = key_event(&event);
    Attempt::new(event).anchored_by(anchor).with_signatures(good(16)).with_evidence(evidence)
}

pub fn bytes(event: TelEvent) -> Vec<u8> {
    sound(event).to_bytes().unwrap()
}

/// A ledger that took these in.
pub fn ledger(events: impl IntoIterator<Item = TelEvent>) -> Ledger {
    let mut ledger = Ledger::new();
    events.into_iter().for_each(|event| ledger.apply(&bytes(event)).unwrap());
    ledger
}

/// The attempts that fill a ledger: 16 registries, the first 15 with as many traits and backers as there can be, and 256 credentials
/// under the last, every third of which is revoked.
pub fn filling() -> Vec<Vec<u8>> {
    let configs = || vec![ConfigTrait::EstOnly; 8];
    let mut attempts: Vec<_> = (1000..1015).map(|id| bytes(vcp_of(said(id), 11, configs(), backers(0, 16)))).collect();
    attempts.push(bytes(backerless()));
    for number in 0..256 {
        let Key { registry, credential } = full_key(number);
        let issue = said(3000 + number);
        attempts.push(bytes(TelEvent::Issue { said: issue, credential, registry }));
        if number % 3 == 0 {
            attempts.push(bytes(TelEvent::Revoke { said: said(4000 + number), credential, registry, prior: issue }));
        }
    }
    attempts
}

/// The key of a credential of the ledger that is full.
pub fn full_key(number: u32) -> Key {
    Key { registry: said(BACKERLESS), credential: said(2000 + number) }
}
