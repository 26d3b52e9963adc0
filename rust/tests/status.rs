//! `status`: each answer, with its disposition.
mod common;

use common::lent::Side;
use common::raw::Host;
use common::world::*;
use jamfell::state::{ConfigTrait, CredentialState, RegistryState};
use jamfell::status::{status, RegistryReference, StatusInput, STATUS_INPUT_BYTES_MAX};
use jamfell::Disposition::{Awaiting, Terminal};
use jamfell::{CredentialError, Disposition, EvidenceKind, Refusal, Refused};

fn registry_state() -> RegistryState {
    RegistryState {
        id: said(REGISTRY),
        issuer: issuer(),
        sn: 0,
        latest: said(REGISTRY),
        toad: 11,
        configs: vec![ConfigTrait::EstOnly; 8],
        backers: backers(0, 16),
    }
}

fn credential_state() -> CredentialState {
    CredentialState { registry: said(REGISTRY), credential: said(CREDENTIAL), sn: 0, head: said(ISSUE) }
}

/// A credential that stands. Its input is as long as one can be.
fn sound() -> StatusInput {
    StatusInput {
        said: said(CREDENTIAL),
        issuer: issuer(),
        registry: RegistryReference::Said(said(REGISTRY)),
        registry_state: Some(registry_state()),
        credential_state: Some(credential_state()),
        issuer_state: Some(issuer()),
    }
}

#[track_caller]
fn refuses(input: StatusInput, error: CredentialError, disposition: Disposition) {
    let refusal = Refusal::Credential(error);
    assert_eq!(status(&input.to_bytes().unwrap()), Err(Refused { refusal, disposition }));
    assert_eq!(refusal.number(), error.number());
}

#[test]
fn each_answer() {
    use CredentialError::*;
    assert_eq!(status(&sound().to_bytes().unwrap()), Ok(()));
    let awaits = Awaiting;
    refuses(StatusInput { registry_state: None, ..sound() }, MissingRegistry, awaits(EvidenceKind::RegistryState));
    let without = StatusInput { credential_state: None, ..sound() };
    refuses(without, MissingCredentialState, awaits(EvidenceKind::CredentialTelState));
    refuses(StatusInput { issuer_state: None, ..sound() }, MissingIssuerState, awaits(EvidenceKind::IssuerState));
    for registry in [RegistryReference::None, RegistryReference::Block] {
        refuses(StatusInput { registry, ..sound() }, MissingRegistryReference, Terminal);
    }
    let registry = RegistryReference::Said(said(50));
    refuses(StatusInput { registry, ..sound() }, RegistryMismatch, Terminal);
    refuses(StatusInput { issuer: said(50).into(), ..sound() }, IssuerMismatch, Terminal);
    refuses(StatusInput { issuer_state: Some(said(50).into()), ..sound() }, IssuerStateMismatch, Terminal);
    let with = |state| StatusInput { credential_state: Some(state), ..sound() };
    refuses(with(CredentialState { registry: said(50), ..credential_state() }), CredentialStateMismatch, Terminal);
    refuses(with(CredentialState { credential: said(50), ..credential_state() }), CredentialStateMismatch, Terminal);
    for sn in [1, 2, u128::MAX] {
        refuses(with(CredentialState { sn, ..credential_state() }), Revoked, Terminal);
    }
}

/// The longest input, and each shorter and longer one, which are malformed.
#[test]
fn inputs_of_each_length() {
    let input = sound().to_bytes().unwrap();
    assert_eq!(input.len(), STATUS_INPUT_BYTES_MAX);
    let mut host = Host::new(Side::End);
    for size in 0..input.len() {
        assert_eq!(host.status(&input[..size]).number, 1);
    }
    assert_eq!(host.status(&input).number, 0);
    assert_eq!(host.status(&[&input[..], &[0]].concat()).number, 1);
    assert_eq!(status(&[]).unwrap_err().refusal, Refusal::Malformed);
}

#[test]
fn in_words() {
    let revoked = StatusInput { credential_state: Some(CredentialState { sn: 1, ..credential_state() }), ..sound() };
    let refused = status(&revoked.to_bytes().unwrap()).unwrap_err();
    assert_eq!(refused.to_string(), "39 Revoked: the credential is revoked; it is never acceptable");
}
