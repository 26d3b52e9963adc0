//! A plain ledger over the given Rust's folds, from docs/RULES.md: "Ledger", "Reading rules", "Image", "Look-up". The Rust has none. All
//! reading rules are checked at every call.
use crate::answer::Answer;
use crate::decode::{Attempt, Reader, attempt};
use crate::keys::Keys;
use crate::{encode, fold};
use keri::{CredentialError, CredentialState, CredentialStatus, RegistryRejection, RegistryState};
use keri_events::{Identifier, MemberSet, Said, Seal, TelEvent, Toad};
use std::collections::HashSet;

pub const MOST_REGISTRIES: usize = 16;
pub const MOST_ROWS: usize = 256;

#[derive(Clone, PartialEq, Eq, Debug, Default)]
pub struct Ledger {
    pub registries: Vec<RegistryState>,
    pub rows: Vec<CredentialState>,
    /// Whether repeated keys are looked for with a hash set, or by comparing every row with those before it.
    pub hashed: bool,
}

/// Where an attempt left its trace.
#[derive(Clone, Copy, PartialEq, Eq, Debug)]
pub enum Changed {
    Nothing,
    Registry(usize),
    Row(usize),
}

impl Ledger {
    fn registry_sound(&self, at: usize) -> bool {
        let state = &self.registries[at];
        let backers = state.backers();
        self.registries[..at].iter().all(|o| o.id() != state.id())
            && MemberSet::check_members(backers, "backers").is_ok()
            && Toad::exact(state.backer_threshold().value(), backers.len()).is_ok()
            && (backers.is_empty() || !state.is_backerless())
    }

    fn keys_differ(&self) -> bool {
        if self.hashed {
            let mut seen = HashSet::with_capacity(self.rows.len());
            let parts = |s: &Said<'static>| (*s.code(), <[u8; 32]>::try_from(s.raw()).expect("32 bytes"));
            return self.rows.iter().all(|row| seen.insert((parts(row.registry()), parts(row.credential()))));
        }
        let same = |a: &CredentialState, b: &CredentialState| a.credential() == b.credential() && a.registry() == b.registry();
        self.rows.iter().enumerate().all(|(i, row)| !self.rows[..i].iter().any(|before| same(before, row)))
    }

    pub fn sound(&self) -> bool {
        self.registries.len() <= MOST_REGISTRIES
            && self.rows.len() <= MOST_ROWS
            && (0..self.registries.len()).all(|at| self.registry_sound(at))
            && self.rows.iter().all(|row| row.sn().value() <= 1 && self.place(row.registry()).is_some())
            && self.keys_differ()
    }

    fn place(&self, id: &Said<'_>) -> Option<usize> {
        self.registries.iter().position(|r| r.id() == id)
    }

    fn row(&self, registry: &Said<'_>, credential: &Said<'_>) -> Option<usize> {
        self.rows.iter().position(|r| r.credential() == credential && r.registry() == registry)
    }

    pub fn apply<K: Keys>(&mut self, bytes: &[u8], keys: &K, salt: usize) -> (Answer, Changed) {
        let read = attempt(bytes, keys, salt);
        let (true, Some(read)) = (self.sound(), read) else {
            return (Answer::terminal(1), Changed::Nothing);
        };
        match self.judged(&read, keys) {
            Ok(changed) => (Answer::accepted(&[]), changed),
            Err(answer) => (answer, Changed::Nothing),
        }
    }

    fn held(&self, id: &Said<'_>) -> Result<usize, Answer> {
        self.place(id).ok_or_else(|| Answer::of(2, RegistryRejection::MissingRegistry.disposition(), &[]))
    }

    fn judged<K: Keys>(&mut self, attempt: &Attempt<'_>, keys: &K) -> Result<Changed, Answer> {
        match &attempt.event {
            TelEvent::RegistryInception(vcp) => {
                if self.place(vcp.said()).is_some() {
                    return Err(Answer::of(3, RegistryRejection::DuplicateInception.disposition(), &[]));
                }
                let next = fold::registry_incept(attempt, keys)?;
                room(self.registries.len(), MOST_REGISTRIES)?;
                self.registries.push(next);
                Ok(Changed::Registry(self.registries.len() - 1))
            }
            TelEvent::RegistryRotation(vrt) => {
                let at = self.held(vrt.registry())?;
                fold::registry_ingest(&mut self.registries[at], attempt, keys)?;
                Ok(Changed::Registry(at))
            }
            TelEvent::Issue(iss) => self.issued(iss.registry_said(), iss.credential_said(), attempt, keys),
            TelEvent::BackedIssue(bis) => self.issued(bis.registry_said(), bis.credential_said(), attempt, keys),
            TelEvent::Revoke(rev) => self.revoked(rev.registry_said(), rev.credential_said(), attempt, keys),
            TelEvent::BackedRevoke(brv) => match brv.anchor() {
                Seal::Event { i: Identifier::SelfAddressing(registry), .. } => self.revoked(registry, brv.credential_said(), attempt, keys),
                _ => Err(Answer::of(10, RegistryRejection::InconsistentRegistry.disposition(), &[])),
            },
        }
    }

    fn issued<K: Keys>(&mut self, registry: &Said<'_>, credential: &Said<'_>, attempt: &Attempt<'_>, keys: &K) -> Result<Changed, Answer> {
        let at = self.held(registry)?;
        if self.row(registry, credential).is_some() {
            return Err(Answer::contested(4));
        }
        let next = fold::credential_incept(&self.registries[at], attempt, keys)?;
        room(self.rows.len(), MOST_ROWS)?;
        self.rows.push(next);
        Ok(Changed::Row(self.rows.len() - 1))
    }

    fn revoked<K: Keys>(&mut self, registry: &Said<'_>, credential: &Said<'_>, attempt: &Attempt<'_>, keys: &K) -> Result<Changed, Answer> {
        let at = self.held(registry)?;
        let missing = || Answer::of(5, CredentialError::MissingCredentialState.disposition(), &[]);
        let row = self.row(registry, credential).ok_or_else(missing)?;
        fold::credential_ingest(&self.registries[at], &mut self.rows[row], attempt, keys)?;
        Ok(Changed::Row(row))
    }

    pub fn look_up<K: Keys>(&self, registry: &[u8], credential: &[u8], keys: &K) -> Answer {
        let said = |b: &[u8]| {
            let mut reader = Reader::new(b, keys, 0);
            let said = reader.said()?.into_static();
            reader.end()?;
            Some(said)
        };
        let (true, Some(registry), Some(credential)) = (self.sound(), said(registry), said(credential)) else {
            return Answer::terminal(1);
        };
        let standing = match self.row(&registry, &credential).map(|at| self.rows[at].status()) {
            Some(CredentialStatus::Issued) => 1,
            Some(CredentialStatus::Revoked) => 2,
            Some(CredentialStatus::Unknown) | None => 3,
        };
        Answer::accepted(&[standing])
    }

    pub fn image<K: Keys>(&self, keys: &K) -> Option<Vec<u8>> {
        if !self.sound() {
            return None;
        }
        let mut out = Vec::with_capacity(4 + self.registries.len() * 658 + self.rows.len() * 115);
        out.extend_from_slice(&(self.registries.len() as u16).to_be_bytes());
        self.registries.iter().for_each(|r| encode::registry_into(&mut out, r, keys));
        out.extend_from_slice(&(self.rows.len() as u16).to_be_bytes());
        self.rows.iter().for_each(|r| encode::credential_into(&mut out, r));
        Some(out)
    }

    pub fn read<K: Keys>(image: &[u8], keys: &K, hashed: bool) -> Option<Self> {
        let mut reader = Reader::new(image, keys, 0);
        let mut ledger = Self { hashed, ..Self::default() };
        let registries = reader.two().filter(|n| usize::from(*n) <= MOST_REGISTRIES)?;
        for _ in 0..registries {
            ledger.registries.push(reader.registry()?);
        }
        let rows = reader.two().filter(|n| usize::from(*n) <= MOST_ROWS)?;
        for _ in 0..rows {
            ledger.rows.push(reader.credential()?);
        }
        reader.end()?;
        ledger.sound().then_some(ledger)
    }
}

fn room(held: usize, most: usize) -> Result<(), Answer> {
    if held < most { Ok(()) } else { Err(Answer::terminal(29)) }
}
