//! The events of a registry and of its credentials, and seals.
use crate::layout::{optional, section, TooMany};
use crate::primitive::{BasicPrefix, Identifier, Said, PRIMITIVE_BYTES};
use crate::state::{put_configs, put_prefixes, ConfigTrait};

/// An entry of a transaction event log.
#[derive(Debug, Clone, PartialEq, Eq)]
pub enum TelEvent {
    /// vcp: creates a registry, whose id is the event's said.
    RegistryInception {
        /// The event's said.
        said: Said,
        /// The identifier whose key log anchors the registry's events.
        issuer: Identifier,
        /// How many receipts an event needs: 0 without backers.
        toad: u32,
        /// Traits, at most 8.
        configs: Vec<ConfigTrait>,
        /// Backers, at most 16.
        backers: Vec<BasicPrefix>,
    },
    /// vrt: changes a registry's backers and toad.
    RegistryRotation {
        /// The event's said.
        said: Said,
        /// The registry.
        registry: Said,
        /// The said of the registry's event before.
        prior: Said,
        /// The sn after that event's.
        sn: u128,
        /// The new toad.
        toad: u32,
        /// Backers to take out, at most 16.
        cuts: Vec<BasicPrefix>,
        /// Backers to put behind the others, at most 16.
        additions: Vec<BasicPrefix>,
    },
    /// iss: issues a credential under a backerless registry.
    Issue {
        /// The event's said.
        said: Said,
        /// The credential.
        credential: Said,
        /// Its registry.
        registry: Said,
    },
    /// rev: revokes a credential under a backerless registry.
    Revoke {
        /// The event's said.
        said: Said,
        /// The credential.
        credential: Said,
        /// Its registry.
        registry: Said,
        /// The said of the credential's issue.
        prior: Said,
    },
    /// bis: issues a credential under a registry with backers.
    BackedIssue {
        /// The event's said.
        said: Said,
        /// The credential.
        credential: Said,
        /// Its registry.
        registry: Said,
        /// The registry's event whose backers and toad count: its registry, sn and said.
        anchor: Seal,
    },
    /// brv: revokes a credential under a registry with backers.
    BackedRevoke {
        /// The event's said.
        said: Said,
        /// The credential.
        credential: Said,
        /// The said of the credential's issue.
        prior: Said,
        /// The registry's event whose backers and toad count: its registry, sn and said.
        anchor: Seal,
    },
}

/// An entry in an event that refers to something outside it. Of all kinds but one no rule reads the content, so only the kind is kept.
#[derive(Debug, Clone, Copy, PartialEq, Eq)]
pub enum Seal {
    /// 1.
    Digest,
    /// 2.
    Root,
    /// 3.
    Source,
    /// 4: an event.
    Event {
        /// Whose event it is.
        i: Identifier,
        /// Its sn.
        s: u128,
        /// Its said.
        d: Said,
    },
    /// 5.
    Last,
    /// 6.
    Back,
    /// 7.
    Kind,
    /// 8.
    Opaque,
}

impl Seal {
    fn kind(&self) -> u8 {
        match self {
            Seal::Digest => 1,
            Seal::Root => 2,
            Seal::Source => 3,
            Seal::Event { .. } => 4,
            Seal::Last => 5,
            Seal::Back => 6,
            Seal::Kind => 7,
            Seal::Opaque => 8,
        }
    }

    pub(crate) fn put(&self, out: &mut Vec<u8>) -> Result<(), TooMany> {
        out.push(self.kind());
        if let Seal::Event { i, s, d } = self {
            out.extend(i.as_bytes());
            out.extend(s.to_be_bytes());
            out.extend(d.as_bytes());
        }
        Ok(())
    }
}

/// The kind byte and the sections 1 to 6 of an event.
struct Parts<'a> {
    kind: u8,
    primitives: Vec<&'a [u8; PRIMITIVE_BYTES]>,
    numbers: Vec<u128>,
    configs: &'a [ConfigTrait],
    backers_or_cuts: &'a [BasicPrefix],
    additions: &'a [BasicPrefix],
    seal: Option<&'a Seal>,
}

impl<'a> Parts<'a> {
    /// The primitives of a kind, and nothing else.
    fn of<const N: usize>(kind: u8, primitives: [&'a [u8; PRIMITIVE_BYTES]; N]) -> Parts<'a> {
        let primitives = primitives.to_vec();
        Parts { kind, primitives, numbers: Vec::new(), configs: &[], backers_or_cuts: &[], additions: &[], seal: None }
    }

    fn put(&self, out: &mut Vec<u8>) -> Result<(), TooMany> {
        out.push(self.kind);
        section(out, "primitives", 4, &self.primitives, |out, primitive| {
            out.extend(*primitive);
            Ok(())
        })?;
        section(out, "numbers", 2, &self.numbers, |out, number| {
            out.extend(number.to_be_bytes());
            Ok(())
        })?;
        put_configs(out, self.configs)?;
        put_prefixes(out, "backers or cuts", self.backers_or_cuts)?;
        put_prefixes(out, "additions", self.additions)?;
        optional(out, self.seal, |out, seal| seal.put(out))
    }
}

impl TelEvent {
    /// The event's said.
    pub fn said(&self) -> Said {
        match self {
            TelEvent::RegistryInception { said, .. }
            | TelEvent::RegistryRotation { said, .. }
            | TelEvent::Issue { said, .. }
            | TelEvent::Revoke { said, .. }
            | TelEvent::BackedIssue { said, .. }
            | TelEvent::BackedRevoke { said, .. } => *said,
        }
    }

    /// The event's sn in its log.
    pub fn sn(&self) -> u128 {
        match self {
            TelEvent::RegistryInception { .. } | TelEvent::Issue { .. } | TelEvent::BackedIssue { .. } => 0,
            TelEvent::RegistryRotation { sn, .. } => *sn,
            TelEvent::Revoke { .. } | TelEvent::BackedRevoke { .. } => 1,
        }
    }

    /// The one seal that the anchoring event of the issuer's key log has to carry.
    pub fn seal(&self) -> Seal {
        let of = match self {
            TelEvent::RegistryInception { said, .. } => said,
            TelEvent::RegistryRotation { registry, .. } => registry,
            TelEvent::Issue { credential, .. }
            | TelEvent::Revoke { credential, .. }
            | TelEvent::BackedIssue { credential, .. }
            | TelEvent::BackedRevoke { credential, .. } => credential,
        };
        Seal::Event { i: Identifier::SelfAddressing(*of), s: self.sn(), d: self.said() }
    }

    /// The event's bytes: its kind and its sections, as they stand at the start of an attempt. Lists that are too long are refused.
    pub fn to_bytes(&self) -> Result<Vec<u8>, TooMany> {
        let mut out = Vec::new();
        self.put(&mut out)?;
        Ok(out)
    }

    pub(crate) fn put(&self, out: &mut Vec<u8>) -> Result<(), TooMany> {
        self.parts().put(out)
    }

    fn parts(&self) -> Parts<'_> {
        match self {
            TelEvent::RegistryInception { said, issuer, toad, configs, backers } => {
                let parts = Parts::of(1, [said.as_bytes(), issuer.as_bytes()]);
                Parts { numbers: vec![(*toad).into()], configs, backers_or_cuts: backers, ..parts }
            }
            TelEvent::RegistryRotation { said, registry, prior, sn, toad, cuts, additions } => {
                let parts = Parts::of(2, [said.as_bytes(), registry.as_bytes(), prior.as_bytes()]);
                Parts { numbers: vec![*sn, (*toad).into()], backers_or_cuts: cuts, additions, ..parts }
            }
            TelEvent::Issue { said, credential, registry } => {
                Parts::of(3, [said.as_bytes(), credential.as_bytes(), registry.as_bytes()])
            }
            TelEvent::Revoke { said, credential, registry, prior } => {
                Parts::of(4, [said.as_bytes(), credential.as_bytes(), registry.as_bytes(), prior.as_bytes()])
            }
            TelEvent::BackedIssue { said, credential, registry, anchor } => {
                let parts = Parts::of(5, [said.as_bytes(), credential.as_bytes(), registry.as_bytes()]);
                Parts { seal: Some(anchor), ..parts }
            }
            TelEvent::BackedRevoke { said, credential, prior, anchor } => {
                let parts = Parts::of(6, [said.as_bytes(), credential.as_bytes(), prior.as_bytes()]);
                Parts { seal: Some(anchor), ..parts }
            }
        }
    }
}
