//! States of the given Rust as bytes ("Bytes").
use crate::keys::Keys;
use keri::{CredentialState, RegistryState};
use keri_events::{ConfigTrait, Identifier, Said};

fn said(out: &mut Vec<u8>, s: &Said<'_>) {
    out.push(s.code().letter());
    out.extend_from_slice(s.raw());
}

pub fn config_byte(c: ConfigTrait) -> u8 {
    match c {
        ConfigTrait::EstOnly => 1,
        ConfigTrait::DoNotDelegate => 2,
        ConfigTrait::NoBackers => 3,
        ConfigTrait::RegistrarBackers => 4,
        ConfigTrait::NoRegistrarBackers => 5,
        ConfigTrait::DelegateIsDelegator => 6,
    }
}

pub fn registry_into<K: Keys>(out: &mut Vec<u8>, s: &RegistryState, keys: &K) {
    said(out, s.id());
    match s.issuer() {
        Identifier::Basic(p) => {
            out.push(p.code().letter());
            out.extend_from_slice(p.raw());
        }
        Identifier::SelfAddressing(p) => said(out, p),
    }
    out.extend_from_slice(&s.sn().value().to_be_bytes());
    said(out, s.latest());
    out.extend_from_slice(&s.backer_threshold().value().to_be_bytes());
    out.push(s.config().len() as u8);
    out.extend(s.config().iter().map(|c| config_byte(*c)));
    out.push(s.backers().len() as u8);
    for b in s.backers() {
        out.extend_from_slice(&keys.original(b));
    }
}

pub fn credential_into(out: &mut Vec<u8>, s: &CredentialState) {
    said(out, s.registry());
    said(out, s.credential());
    out.extend_from_slice(&s.sn().value().to_be_bytes());
    said(out, s.head());
}

pub fn registry<K: Keys>(s: &RegistryState, keys: &K) -> Vec<u8> {
    let mut out = Vec::with_capacity(658);
    registry_into(&mut out, s, keys);
    out
}

pub fn credential(s: &CredentialState) -> Vec<u8> {
    let mut out = Vec::with_capacity(115);
    credential_into(&mut out, s);
    out
}
