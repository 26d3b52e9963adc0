//! The folds: from an attempt, and the states that it needs, to the next state, for a host that keeps the states itself.
//!
//! States go in and come out as bytes ([`RegistryState`](crate::state::RegistryState) and
//! [`CredentialState`](crate::state::CredentialState) read and write them). The next state is written to the start of `next`, and its
//! length is the answer; bytes behind it keep their values. A buffer that is too short for it is refused with
//! [`ShortBuffer`](crate::Refusal::ShortBuffer), and after any refusal the buffer is as it was.
//!
//! ```
//! use jamfell::folds::registry_incept;
//! use jamfell::state::{ConfigTrait, RegistryState, REGISTRY_STATE_BYTES_MAX};
//! # use jamfell::attempt::{AnchoringEvent, Attempt, TelEvent, TelEvidence};
//! # use jamfell::{BasicPrefix, Said};
//! # fn main() -> Result<(), Box<dyn std::error::Error>> {
//! # let issuer = BasicPrefix::new(b'D', [1; 32])?;
//! # let said = Said::new(b'E', [2; 32])?;
//! # let vcp = TelEvent::RegistryInception {
//! #     said, issuer: issuer.into(), toad: 0, configs: vec![ConfigTrait::NoBackers], backers: vec![],
//! # };
//! # let anchor = AnchoringEvent { prefix: issuer.into(), sn: 1, said, seals: vec![vcp.seal()] };
//! # let evidence = TelEvidence::Issuer { prefix: issuer.into(), anchor: None };
//! # let attempt = Attempt::new(vcp).anchored_by(anchor).with_evidence(evidence).to_bytes()?;
//! // `attempt` has the bytes of a vcp without backers.
//! let mut next = [0; REGISTRY_STATE_BYTES_MAX];
//! let size = registry_incept(&attempt, &mut next)?;
//! let state = RegistryState::from_bytes(&next[..size]).expect("a fold leaves a state");
//! assert_eq!((state.id, state.sn), (said, 0));
//! assert_eq!(state.configs, [ConfigTrait::NoBackers]);
//! # Ok(())
//! # }
//! ```
use crate::refusal::Refused;
use crate::report::answer;
use crate::sys;

/// A vcp: makes a registry state.
pub fn registry_incept(attempt: &[u8], next: &mut [u8]) -> Result<usize, Refused> {
    // SAFETY: the slices and the report are lent for the call, and `next` overlaps none, as it is borrowed for writing.
    let report = answer(|report| unsafe {
        sys::jamfell_registry_incept(attempt.as_ptr(), attempt.len(), next.as_mut_ptr(), next.len(), report)
    })?;
    Ok(report.size(0))
}

/// A vrt: the registry state behind this one.
pub fn registry_ingest(state: &[u8], attempt: &[u8], next: &mut [u8]) -> Result<usize, Refused> {
    // SAFETY: as in `registry_incept`.
    let report = answer(|report| unsafe {
        sys::jamfell_registry_ingest(
            state.as_ptr(),
            state.len(),
            attempt.as_ptr(),
            attempt.len(),
            next.as_mut_ptr(),
            next.len(),
            report,
        )
    })?;
    Ok(report.size(0))
}

/// An iss or bis: makes a credential state.
pub fn credential_incept(registry: &[u8], attempt: &[u8], next: &mut [u8]) -> Result<usize, Refused> {
    // SAFETY: as in `registry_incept`.
    let report = answer(|report| unsafe {
        sys::jamfell_credential_incept(
            registry.as_ptr(),
            registry.len(),
            attempt.as_ptr(),
            attempt.len(),
            next.as_mut_ptr(),
            next.len(),
            report,
        )
    })?;
    Ok(report.size(0))
}

/// A rev or brv: the credential state behind this one.
pub fn credential_ingest(
    registry: &[u8],
    credential: &[u8],
    attempt: &[u8],
    next: &mut [u8],
) -> Result<usize, Refused> {
    // SAFETY: as in `registry_incept`.
    let report = answer(|report| unsafe {
        sys::jamfell_credential_ingest(
            registry.as_ptr(),
            registry.len(),
            credential.as_ptr(),
            credential.len(),
            attempt.as_ptr(),
            attempt.len(),
            next.as_mut_ptr(),
            next.len(),
            report,
        )
    })?;
    Ok(report.size(0))
}
