//! Whether a credential stands, for a host that keeps the states itself.
use crate::layout::{optional, TooMany};
use crate::primitive::{Identifier, Said};
use crate::refusal::Refused;
use crate::report::answer;
use crate::state::{CredentialState, RegistryState};
use crate::sys;

/// The most bytes that the input of [`status`] has.
pub const STATUS_INPUT_BYTES_MAX: usize = 908;

/// A credential, and what the host has accepted about it.
#[derive(Debug, Clone, PartialEq, Eq)]
pub struct StatusInput {
    /// The credential's said.
    pub said: Said,
    /// The credential's issuer.
    pub issuer: Identifier,
    /// What the credential says of its registry.
    pub registry: RegistryReference,
    /// The state of that registry.
    pub registry_state: Option<RegistryState>,
    /// The state of the credential.
    pub credential_state: Option<CredentialState>,
    /// The identifier of the issuer's key state.
    pub issuer_state: Option<Identifier>,
}

/// What a credential says of its registry.
#[derive(Debug, Clone, Copy, PartialEq, Eq)]
pub enum RegistryReference {
    /// Nothing.
    None,
    /// The registry's said.
    Said(Said),
    /// A block, which is no reference.
    Block,
}

impl StatusInput {
    /// The bytes that [`status`] takes. A registry state with lists that are too long is refused.
    pub fn to_bytes(&self) -> Result<Vec<u8>, TooMany> {
        let mut out = Vec::with_capacity(STATUS_INPUT_BYTES_MAX);
        out.extend(self.said.as_bytes());
        out.extend(self.issuer.as_bytes());
        match self.registry {
            RegistryReference::None => out.push(0),
            RegistryReference::Said(said) => {
                out.push(1);
                out.extend(said.as_bytes());
            }
            RegistryReference::Block => out.push(2),
        }
        optional(&mut out, self.registry_state.as_ref(), |out, state| state.put(out))?;
        optional(&mut out, self.credential_state.as_ref(), |out, state| {
            out.extend(state.to_bytes());
            Ok(())
        })?;
        optional(&mut out, self.issuer_state.as_ref(), |out, issuer| {
            out.extend(issuer.as_bytes());
            Ok(())
        })?;
        Ok(out)
    }
}

/// Whether a credential is its issuer's and stands unrevoked under its registry. A refusal is
/// [`Malformed`](crate::Refusal::Malformed), or a [`CredentialError`](crate::CredentialError).
///
/// ```
/// use jamfell::status::{status, RegistryReference, StatusInput};
/// use jamfell::{BasicPrefix, CredentialError, Disposition, EvidenceKind, Refusal, Said};
///
/// # fn main() -> Result<(), Box<dyn std::error::Error>> {
/// let input = StatusInput {
///     said: Said::new(b'E', [1; 32])?,
///     issuer: BasicPrefix::new(b'D', [2; 32])?.into(),
///     registry: RegistryReference::Said(Said::new(b'E', [3; 32])?),
///     registry_state: None,
///     credential_state: None,
///     issuer_state: None,
/// };
/// let refused = status(&input.to_bytes()?).unwrap_err();
/// assert_eq!(refused.refusal, Refusal::Credential(CredentialError::MissingRegistry));
/// assert_eq!(refused.disposition, Disposition::Awaiting(EvidenceKind::RegistryState));
/// # Ok(())
/// # }
/// ```
pub fn status(input: &[u8]) -> Result<(), Refused> {
    // SAFETY: the slice and the report are lent for the call, and do not overlap.
    answer(|report| unsafe { sys::jamfell_status(input.as_ptr(), input.len(), report) })?;
    Ok(())
}
