//! Attempts: an event with its source, its anchoring event, the verdicts on its receipts, and evidence, laid out in the bytes that
//! [`Ledger::apply`](crate::Ledger::apply) and the [folds](crate::folds) take.
//!
//! ```
//! use jamfell::attempt::{AnchoringEvent, Attempt, TelEvent, TelEvidence};
//! use jamfell::state::ConfigTrait;
//! use jamfell::{BasicPrefix, Ledger, Said};
//!
//! # fn main() -> Result<(), Box<dyn std::error::Error>> {
//! let issuer = BasicPrefix::new(b'D', [1; 32])?;
//! let vcp = TelEvent::RegistryInception {
//!     said: Said::new(b'E', [2; 32])?,
//!     issuer: issuer.into(),
//!     toad: 0,
//!     configs: vec![ConfigTrait::NoBackers],
//!     backers: vec![],
//! };
//! // The event of the issuer's key log that anchors the vcp, as the host has accepted it.
//! let key_event = AnchoringEvent {
//!     prefix: issuer.into(),
//!     sn: 1,
//!     said: Said::new(b'E', [3; 32])?,
//!     seals: vec![vcp.seal()],
//! };
//! let attempt = Attempt::new(vcp)
//!     .anchored_by(key_event)
//!     .with_evidence(TelEvidence::Issuer { prefix: issuer.into(), anchor: None })
//!     .to_bytes()?;
//!
//! let mut ledger = Ledger::new();
//! ledger.apply(&attempt)?;
//! assert_eq!(ledger.registry_count(), 1);
//! # Ok(())
//! # }
//! ```
use crate::layout::{optional, section};
use crate::primitive::{Identifier, Said};
use crate::state::RegistryState;

pub use crate::event::{Seal, TelEvent};
pub use crate::kind::{decode, Kind};
pub use crate::layout::TooMany;

/// The most bytes that an attempt has. What is longer is malformed.
pub const ATTEMPT_BYTES_MAX: usize = 3096;

/// An event with what its sender and the host know about it.
#[derive(Debug, Clone, PartialEq, Eq)]
pub struct Attempt {
    /// The event.
    pub event: TelEvent,
    /// Where the event is said to be anchored.
    pub source: Option<Source>,
    /// The anchoring event that came with the message.
    pub anchor: Option<AnchoringEvent>,
    /// The verdicts on the signatures that came with the event, at most 64.
    pub signatures: Vec<Signature>,
    /// What the host knows about the issuer or the backers.
    pub evidence: TelEvidence,
}

/// The sn and the said of the anchoring event, as the message states them.
#[derive(Debug, Clone, Copy, PartialEq, Eq)]
pub struct Source {
    /// The sn of the anchoring event.
    pub sn: u128,
    /// Its said.
    pub said: Said,
}

/// An event of the issuer's key log, which the host has accepted.
#[derive(Debug, Clone, PartialEq, Eq)]
pub struct AnchoringEvent {
    /// Whose key log it is.
    pub prefix: Identifier,
    /// Its sn.
    pub sn: u128,
    /// Its said.
    pub said: Said,
    /// Its seals, at most 8. [`TelEvent::seal`] gives the one that it has to be.
    pub seals: Vec<Seal>,
}

/// What the host found of a backer's signature over the event.
#[derive(Debug, Clone, Copy, PartialEq, Eq)]
pub struct Signature {
    /// The backer's position in the list, from 0.
    pub index: u32,
    /// Whether the signature is good.
    pub good: bool,
}

/// What the host knows about the issuer or the backers.
#[derive(Debug, Clone, PartialEq, Eq)]
pub enum TelEvidence {
    /// Nothing yet.
    Missing,
    /// The issuer, for vcp, vrt, iss and rev.
    Issuer {
        /// The issuer of an accepted key state.
        prefix: Identifier,
        /// The anchoring event, where it did not come with the message.
        anchor: Option<AnchoringEvent>,
    },
    /// For bis and brv: the registry's backers are those that it has now.
    Backer,
    /// For bis and brv: the backers are those of this earlier state of the registry.
    BackerAt {
        /// The state that the event's own seal names.
        management: RegistryState,
    },
}

impl AnchoringEvent {
    fn put(&self, out: &mut Vec<u8>) -> Result<(), TooMany> {
        out.extend(self.prefix.as_bytes());
        out.extend(self.sn.to_be_bytes());
        out.extend(self.said.as_bytes());
        section(out, "seals", 8, &self.seals, |out, seal| seal.put(out))
    }
}

impl TelEvidence {
    fn put(&self, out: &mut Vec<u8>) -> Result<(), TooMany> {
        match self {
            TelEvidence::Missing => out.push(0),
            TelEvidence::Issuer { prefix, anchor } => {
                out.push(1);
                out.extend(prefix.as_bytes());
                optional(out, anchor.as_ref(), |out, anchor| anchor.put(out))?;
            }
            TelEvidence::Backer => out.push(2),
            TelEvidence::BackerAt { management } => {
                out.push(3);
                management.put(out)?;
            }
        }
        Ok(())
    }
}

impl Attempt {
    /// The event alone: no source, no anchoring event, no signatures, and no evidence.
    pub fn new(event: TelEvent) -> Attempt {
        Attempt { event, source: None, anchor: None, signatures: Vec::new(), evidence: TelEvidence::Missing }
    }

    /// With this anchoring event in the message, and with it as the source.
    pub fn anchored_by(self, anchor: AnchoringEvent) -> Attempt {
        let source = Some(Source { sn: anchor.sn, said: anchor.said });
        Attempt { source, anchor: Some(anchor), ..self }
    }

    /// With these verdicts.
    pub fn with_signatures(self, signatures: Vec<Signature>) -> Attempt {
        Attempt { signatures, ..self }
    }

    /// With this evidence.
    pub fn with_evidence(self, evidence: TelEvidence) -> Attempt {
        Attempt { evidence, ..self }
    }

    /// The attempt's bytes. Lists that are too long are refused, so the ledger never finds these bytes malformed.
    pub fn to_bytes(&self) -> Result<Vec<u8>, TooMany> {
        let mut out = Vec::new();
        self.event.put(&mut out)?;
        optional(&mut out, self.source.as_ref(), |out, source| {
            out.extend(source.sn.to_be_bytes());
            out.extend(source.said.as_bytes());
            Ok(())
        })?;
        optional(&mut out, self.anchor.as_ref(), |out, anchor| anchor.put(out))?;
        section(&mut out, "signatures", 64, &self.signatures, |out, signature| {
            out.extend(signature.index.to_be_bytes());
            out.push(signature.good.into());
            Ok(())
        })?;
        section(&mut out, "evidence", 1, std::slice::from_ref(&self.evidence), |out, evidence| evidence.put(out))?;
        Ok(out)
    }
}
