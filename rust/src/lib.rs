//! Jamfell for hosts in Rust: a ledger of credentials, whose calls are proved to keep to docs/RULES.md. This crate wraps them safely
//! and decides nothing itself.
//!
//! - [`Ledger`] holds registries and credentials: [`apply`](Ledger::apply) takes an attempt in, [`standing`](Ledger::standing)
//!   answers how a credential stands, [`to_image`](Ledger::to_image) and [`from_image`](Ledger::from_image) keep it.
//! - [`attempt`] makes the bytes of attempts from values, and says of bytes whether they are one.
//! - [`folds`], [`status`](status::status), [`exact`] and [`ample`] are for hosts that keep the states themselves.
//! - Each call answers a [`Refused`] where it refuses: a [`Refusal`] with its details, and a [`Disposition`], which says what to do.
//! - [`sys`] has the calls as they are.
//!
//! What the host is trusted with: the verdicts on signatures that it puts in an attempt, and that the key events and the key states
//! that it hands over are accepted ones.
//!
//! A registry, a credential that is issued under it, and its revocation:
//!
//! ```
//! use jamfell::attempt::{AnchoringEvent, Attempt, TelEvent, TelEvidence};
//! use jamfell::state::ConfigTrait;
//! use jamfell::{BasicPrefix, Key, Ledger, Said, Standing};
//!
//! # fn main() -> Result<(), Box<dyn std::error::Error>> {
//! let issuer = BasicPrefix::new(b'D', [1; 32])?.into();
//! // Each event is anchored in the issuer's key log. A host has these key events; here they are made up.
//! let anchored = |event: TelEvent| {
//!     let key_event = AnchoringEvent { prefix: issuer, sn: 1, said: event.said(), seals: vec![event.seal()] };
//!     let evidence = TelEvidence::Issuer { prefix: issuer, anchor: None };
//!     Attempt::new(event).anchored_by(key_event).with_evidence(evidence).to_bytes()
//! };
//! let [registry, credential, issue, revocation] = [2, 3, 4, 5].map(|n| Said::new(b'E', [n; 32]).unwrap());
//!
//! let mut ledger = Ledger::new();
//! let (configs, backers) = (vec![ConfigTrait::NoBackers], vec![]);
//! let vcp = TelEvent::RegistryInception { said: registry, issuer, toad: 0, configs, backers };
//! ledger.apply(&anchored(vcp)?)?;
//!
//! let key = Key { registry, credential };
//! assert_eq!(ledger.standing(&key)?, Standing::Unknown);
//! ledger.apply(&anchored(TelEvent::Issue { said: issue, credential, registry })?)?;
//! assert_eq!(ledger.standing(&key)?, Standing::Issued);
//! ledger.apply(&anchored(TelEvent::Revoke { said: revocation, credential, registry, prior: issue })?)?;
//! assert_eq!(ledger.standing(&key)?, Standing::Revoked);
//! # Ok(())
//! # }
//! ```
//!
//! The calls are in `libhost.a`, for x86-64 Linux. `tools/library.sh` in the repository writes it to target/staticlib, where the
//! build looks for it; the variable JAMFELL_LIB names another folder.
#![deny(missing_docs)]
#![deny(unsafe_op_in_unsafe_fn)]

pub mod attempt;
mod credential_error;
mod disposition;
mod event;
pub mod folds;
mod kind;
mod layout;
mod ledger;
mod primitive;
mod refusal;
mod report;
pub mod state;
pub mod status;
pub mod sys;
mod thresholds;

pub use credential_error::CredentialError;
pub use disposition::{Disposition, EvidenceKind};
pub use ledger::{Key, Ledger, Standing, IMAGE_BYTES_MAX};
pub use primitive::{BasicPrefix, Identifier, Said, WrongLetter, PRIMITIVE_BYTES};
pub use refusal::{Refusal, Refused, Rule};
pub use thresholds::{ample, exact};
