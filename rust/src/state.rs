//! The states of registries and credentials, as values and as bytes.
use crate::layout::{section, Reader, TooMany};
use crate::primitive::{BasicPrefix, Identifier, Said};

/// The most bytes that a registry state has.
pub const REGISTRY_STATE_BYTES_MAX: usize = 657;

/// How many bytes a credential state has.
pub const CREDENTIAL_STATE_BYTES: usize = 115;

/// A trait in a registry's configuration.
#[derive(Debug, Clone, Copy, PartialEq, Eq, Hash)]
pub enum ConfigTrait {
    /// 1, EO.
    EstOnly = 1,
    /// 2, DND.
    DoNotDelegate = 2,
    /// 3, NB: the registry is backerless.
    NoBackers = 3,
    /// 4, RB.
    RegistrarBackers = 4,
    /// 5, NRB.
    NoRegistrarBackers = 5,
    /// 6, DID.
    DelegateIsDelegator = 6,
}

/// A registry: what its accepted events have made of it.
#[derive(Debug, Clone, PartialEq, Eq)]
pub struct RegistryState {
    /// The said of its vcp.
    pub id: Said,
    /// The identifier whose key log anchors its events.
    pub issuer: Identifier,
    /// The sn of its last event.
    pub sn: u128,
    /// The said of its last event.
    pub latest: Said,
    /// How many receipts an event needs.
    pub toad: u32,
    /// Its traits, at most 8.
    pub configs: Vec<ConfigTrait>,
    /// Its backers, at most 16.
    pub backers: Vec<BasicPrefix>,
}

/// A credential under a registry.
#[derive(Debug, Clone, Copy, PartialEq, Eq)]
pub struct CredentialState {
    /// The said of its registry.
    pub registry: Said,
    /// The said that names it.
    pub credential: Said,
    /// 0 where it is issued, 1 where it is revoked.
    pub sn: u128,
    /// The said of its last event.
    pub head: Said,
}

impl ConfigTrait {
    const ALL: [ConfigTrait; 6] = [
        ConfigTrait::EstOnly,
        ConfigTrait::DoNotDelegate,
        ConfigTrait::NoBackers,
        ConfigTrait::RegistrarBackers,
        ConfigTrait::NoRegistrarBackers,
        ConfigTrait::DelegateIsDelegator,
    ];

    /// The trait of a byte from 1 to 6.
    pub fn from_byte(byte: u8) -> Option<ConfigTrait> {
        ConfigTrait::ALL.get(usize::from(byte).checked_sub(1)?).copied()
    }
}

/// A section of config bytes.
pub(crate) fn put_configs(out: &mut Vec<u8>, configs: &[ConfigTrait]) -> Result<(), TooMany> {
    section(out, "config traits", 8, configs, |out, config| {
        out.push(*config as u8);
        Ok(())
    })
}

/// A section of backers, of cuts or of additions.
pub(crate) fn put_prefixes(out: &mut Vec<u8>, what: &'static str, prefixes: &[BasicPrefix]) -> Result<(), TooMany> {
    section(out, what, 16, prefixes, |out, prefix| {
        out.extend(prefix.as_bytes());
        Ok(())
    })
}

impl RegistryState {
    /// The bytes of the state. More than 8 traits or 16 backers are refused.
    pub fn to_bytes(&self) -> Result<Vec<u8>, TooMany> {
        let mut out = Vec::with_capacity(REGISTRY_STATE_BYTES_MAX);
        self.put(&mut out)?;
        Ok(out)
    }

    pub(crate) fn put(&self, out: &mut Vec<u8>) -> Result<(), TooMany> {
        out.extend(self.id.as_bytes());
        out.extend(self.issuer.as_bytes());
        out.extend(self.sn.to_be_bytes());
        out.extend(self.latest.as_bytes());
        out.extend(self.toad.to_be_bytes());
        put_configs(out, &self.configs)?;
        put_prefixes(out, "backers", &self.backers)
    }

    /// The state of such bytes, or none where they break the layout or go on behind it.
    pub fn from_bytes(bytes: &[u8]) -> Option<RegistryState> {
        let mut from = Reader(bytes);
        let state = RegistryState {
            id: from.primitive()?,
            issuer: from.primitive()?,
            sn: from.sn()?,
            latest: from.primitive()?,
            toad: u32::from_be_bytes(from.take()?),
            configs: from.section(8, |from| from.byte().and_then(ConfigTrait::from_byte))?,
            backers: from.section(16, Reader::primitive)?,
        };
        from.0.is_empty().then_some(state)
    }
}

impl CredentialState {
    /// The bytes of the state.
    pub fn to_bytes(&self) -> Vec<u8> {
        let mut out = Vec::with_capacity(CREDENTIAL_STATE_BYTES);
        out.extend(self.registry.as_bytes());
        out.extend(self.credential.as_bytes());
        out.extend(self.sn.to_be_bytes());
        out.extend(self.head.as_bytes());
        out
    }

    /// The state of such bytes, or none where they break the layout or go on behind it.
    pub fn from_bytes(bytes: &[u8]) -> Option<CredentialState> {
        let mut from = Reader(bytes);
        let state = CredentialState {
            registry: from.primitive()?,
            credential: from.primitive()?,
            sn: from.sn()?,
            head: from.primitive()?,
        };
        from.0.is_empty().then_some(state)
    }
}
