//! The layouts of docs/RULES.md, "Bytes", read into the types of the given Rust. `None` is refusal 1. Primitives borrow from the bytes.
use crate::keys::Keys;
use cesr::core::matter::code::{DigestCode, OtherCode, VerKeyCode};
use cesr::core::matter::matter::Matter;
use cesr::core::primitives::Number;
use keri::{CredentialState, RegistryState};
use keri_events::{
    BackedIssue, BackedRevoke, BasicPrefix, ConfigTrait, Identifier, InceptionEvent, InteractionEvent, Issue, KeriEvent, OpaqueSeal,
    RegistryInception, RegistryRotation, Revoke, RotationEvent, Said, Seal, SigningThreshold, TelEvent, Toad,
};
use std::borrow::Cow;

pub enum Evidence<'a> {
    Missing,
    Issuer(Identifier<'a>, Option<KeriEvent<'a>>),
    Backer,
    BackerAt(RegistryState),
}

pub struct Attempt<'a> {
    pub event: TelEvent<'a>,
    /// The kind byte and sections 1 to 6: what backers sign.
    pub body: &'a [u8],
    pub source: Option<(Number, Said<'a>)>,
    pub anchor: Option<KeriEvent<'a>>,
    /// For each signature its index and the one byte of its verdict.
    pub signatures: Vec<(u32, &'a [u8])>,
    pub evidence: Evidence<'a>,
}

pub struct StatusInput<'a> {
    pub said: Said<'a>,
    pub issuer: Identifier<'a>,
    pub reference: Reference<'a>,
    pub registry: Option<RegistryState>,
    pub credential: Option<CredentialState>,
    pub issuer_state: Option<Identifier<'a>>,
}

pub enum Reference<'a> {
    Absent,
    Said(Said<'a>),
    Block,
}

/// What the event of an attempt would have to find in its seal. Seals of the seven kinds without content are made to look like it.
struct Wanted<'a> {
    i: Said<'a>,
    s: Number,
    d: Said<'a>,
}

pub struct Reader<'a, 'k, K> {
    bytes: &'a [u8],
    at: usize,
    keys: &'k K,
    /// Which of the kinds of key events is made of an anchoring event.
    salt: usize,
}

impl<'a, 'k, K: Keys> Reader<'a, 'k, K> {
    pub const fn new(bytes: &'a [u8], keys: &'k K, salt: usize) -> Self {
        Self { bytes, at: 0, keys, salt }
    }

    fn take(&mut self, n: usize) -> Option<&'a [u8]> {
        let taken = self.bytes.get(self.at..self.at.checked_add(n)?)?;
        self.at += n;
        Some(taken)
    }

    fn byte(&mut self) -> Option<u8> {
        Some(self.take(1)?[0])
    }

    pub fn two(&mut self) -> Option<u16> {
        Some(u16::from_be_bytes(self.take(2)?.try_into().ok()?))
    }

    fn four(&mut self) -> Option<u32> {
        Some(u32::from_be_bytes(self.take(4)?.try_into().ok()?))
    }

    fn number(&mut self) -> Option<u128> {
        Some(u128::from_be_bytes(self.take(16)?.try_into().ok()?))
    }

    fn count(&mut self, most: u8) -> Option<u8> {
        self.byte().filter(|n| *n <= most)
    }

    fn exactly(&mut self, n: u8) -> Option<()> {
        (self.byte()? == n).then_some(())
    }

    pub fn end(&self) -> Option<()> {
        (self.at == self.bytes.len()).then_some(())
    }

    fn many<T>(&mut self, most: u8, mut read: impl FnMut(&mut Self) -> Option<T>) -> Option<Vec<T>> {
        let n = self.count(most)?;
        let mut all = Vec::with_capacity(n.into());
        for _ in 0..n {
            all.push(read(self)?);
        }
        Some(all)
    }

    pub fn said(&mut self) -> Option<Said<'a>> {
        let p = self.take(33)?;
        Some(Said::new(Matter::from_parts(DigestCode::from_letter(p[0])?, Cow::Borrowed(&p[1..]))))
    }

    fn identifier(&mut self) -> Option<Identifier<'a>> {
        let p = self.take(33)?;
        let raw = Cow::Borrowed(&p[1..]);
        Some(match VerKeyCode::from_letter(p[0]) {
            Some(code) => Identifier::Basic(BasicPrefix::new(Matter::from_parts(code, raw))),
            None => Identifier::SelfAddressing(Said::new(Matter::from_parts(DigestCode::from_letter(p[0])?, raw))),
        })
    }

    fn backer(&mut self) -> Option<BasicPrefix<'a>> {
        let p = self.take(33)?;
        let code = VerKeyCode::from_letter(p[0])?;
        Some(BasicPrefix::new(Matter::from_parts(code, self.keys.public(p.try_into().ok()?))))
    }

    fn config(&mut self) -> Option<ConfigTrait> {
        Some(match self.byte()? {
            1 => ConfigTrait::EstOnly,
            2 => ConfigTrait::DoNotDelegate,
            3 => ConfigTrait::NoBackers,
            4 => ConfigTrait::RegistrarBackers,
            5 => ConfigTrait::NoRegistrarBackers,
            6 => ConfigTrait::DelegateIsDelegator,
            _ => return None,
        })
    }

    fn seal(&mut self, wanted: &Wanted<'a>) -> Option<Seal<'a>> {
        let d = || wanted.d.clone();
        Some(match self.byte()? {
            1 => Seal::Digest { d: d() },
            2 => Seal::Root { rd: d() },
            3 => Seal::Source { s: wanted.s, d: d() },
            4 => Seal::Event { i: self.identifier()?, s: Number::new(self.number()?), d: self.said()? },
            5 => Seal::Last { i: Identifier::SelfAddressing(wanted.i.clone()) },
            6 => Seal::Back { bi: BasicPrefix::new(Matter::from_parts(VerKeyCode::Ed25519N, Cow::Borrowed(&[7; 32]))), d: d() },
            7 => Seal::Kind { t: Matter::from_parts(OtherCode, Cow::Borrowed(&[1])), d: d() },
            8 => Seal::Opaque(OpaqueSeal::new_unchecked("{\"i\":\"x\"}".to_owned())),
            _ => return None,
        })
    }

    fn anchor(&mut self, wanted: &Wanted<'a>) -> Option<Option<KeriEvent<'a>>> {
        if self.count(1)? == 0 {
            return Some(None);
        }
        let (prefix, sn, said) = (self.identifier()?, Number::new(self.number()?), self.said()?);
        let seals = self.many(8, |r| r.seal(wanted))?;
        self.salt = self.salt.wrapping_add(1);
        Some(Some(key_event(self.salt, prefix, sn, said, seals)))
    }

    pub fn registry(&mut self) -> Option<RegistryState> {
        let (id, issuer) = (self.said()?.into_static(), self.identifier()?.into_static());
        let (sn, latest, toad) = (Number::new(self.number()?), self.said()?.into_static(), Toad::from_wire(self.four()?));
        let config = self.many(8, Self::config)?;
        let backers = self.many(16, |r| Some(r.backer()?.into_static()))?;
        Some(RegistryState::from_parts(id, issuer, sn, latest, config, toad, backers))
    }

    pub fn credential(&mut self) -> Option<CredentialState> {
        let (registry, credential) = (self.said()?.into_static(), self.said()?.into_static());
        Some(CredentialState::from_parts(registry, credential, Number::new(self.number()?), self.said()?.into_static()))
    }

    fn evidence(&mut self, wanted: &Wanted<'a>) -> Option<Evidence<'a>> {
        Some(match self.byte()? {
            0 => Evidence::Missing,
            1 => Evidence::Issuer(self.identifier()?, self.anchor(wanted)?),
            2 => Evidence::Backer,
            3 => Evidence::BackerAt(self.registry()?),
            _ => return None,
        })
    }

    /// The event, and what its anchoring event has to seal.
    fn event(&mut self) -> Option<(TelEvent<'a>, Wanted<'a>)> {
        let kind = self.byte()?;
        self.exactly(*[2, 3, 3, 4, 3, 3].get(usize::from(kind).checked_sub(1)?)?)?;
        let said = self.said()?;
        match kind {
            1 => self.inception(said),
            2 => self.rotation(said),
            _ => self.of_credential(kind, said),
        }
    }

    fn inception(&mut self, said: Said<'a>) -> Option<(TelEvent<'a>, Wanted<'a>)> {
        let issuer = self.identifier()?;
        let [toad] = self.numbers()?;
        let (config, backers) = (self.many(8, Self::config)?, self.many(16, Self::backer)?);
        self.none()?;
        self.none()?;
        let wanted = Wanted { i: said.clone(), s: Number::new(0), d: said.clone() };
        let nonce = Matter::from_parts(OtherCode, Cow::Borrowed(&[9; 16]));
        let toad = Toad::from_wire(toad.try_into().ok()?);
        Some((TelEvent::RegistryInception(RegistryInception::new_unchecked(said, issuer, config, toad, backers, nonce)), wanted))
    }

    fn rotation(&mut self, said: Said<'a>) -> Option<(TelEvent<'a>, Wanted<'a>)> {
        let (registry, prior) = (self.said()?, self.said()?);
        let [sn, toad] = self.numbers()?;
        self.none()?;
        let (cuts, additions) = (self.many(16, Self::backer)?, self.many(16, Self::backer)?);
        self.none()?;
        let wanted = Wanted { i: registry.clone(), s: Number::new(sn), d: said.clone() };
        let toad = Toad::from_wire(toad.try_into().ok()?);
        let vrt = RegistryRotation::new_unchecked(said, registry, prior, Number::new(sn), toad, cuts, additions);
        Some((TelEvent::RegistryRotation(vrt), wanted))
    }

    fn of_credential(&mut self, kind: u8, said: Said<'a>) -> Option<(TelEvent<'a>, Wanted<'a>)> {
        let time = Cow::Borrowed("2026-11-15T00:00:00.000000+00:00");
        let credential = self.said()?;
        let sn = if kind % 2 == 1 { 0 } else { 1 };
        let wanted = Wanted { i: credential.clone(), s: Number::new(sn), d: said.clone() };
        let event = match kind {
            3 => {
                let registry = self.said()?;
                self.simple()?;
                TelEvent::Issue(Issue::new_unchecked(said, credential, registry, time))
            }
            4 => {
                let (registry, prior) = (self.said()?, self.said()?);
                self.simple()?;
                TelEvent::Revoke(Revoke::new_unchecked(said, credential, registry, prior, time))
            }
            5 => {
                let registry = self.said()?;
                let own = self.own(&wanted)?;
                TelEvent::BackedIssue(BackedIssue::new_unchecked(said, credential, registry, own, time))
            }
            _ => {
                let prior = self.said()?;
                let own = self.own(&wanted)?;
                TelEvent::BackedRevoke(BackedRevoke::new_unchecked(said, credential, prior, own, time))
            }
        };
        Some((event, wanted))
    }

    fn none(&mut self) -> Option<()> {
        self.exactly(0)
    }

    fn numbers<const N: usize>(&mut self) -> Option<[u128; N]> {
        self.exactly(N as u8)?;
        let mut all = [0; N];
        for n in &mut all {
            *n = self.number()?;
        }
        Some(all)
    }

    /// Sections 2 to 6 of an iss or rev: all empty.
    fn simple(&mut self) -> Option<()> {
        (0..5).try_for_each(|_| self.none())
    }

    /// Sections 2 to 6 of a bis or brv: its own seal alone.
    fn own(&mut self, wanted: &Wanted<'a>) -> Option<Seal<'a>> {
        (0..4).try_for_each(|_| self.none())?;
        self.exactly(1)?;
        self.seal(wanted)
    }

    fn attempt(&mut self) -> Option<Attempt<'a>> {
        let (event, wanted) = self.event()?;
        let body = &self.bytes[..self.at];
        let source = if self.count(1)? == 1 { Some((Number::new(self.number()?), self.said()?)) } else { None };
        let anchor = self.anchor(&wanted)?;
        let signatures = self.many(64, |r| {
            let (index, verdict) = (r.four()?, r.take(1)?);
            (verdict[0] <= 1).then_some((index, verdict))
        })?;
        self.exactly(1)?;
        let evidence = self.evidence(&wanted)?;
        self.end()?;
        Some(Attempt { event, body, source, anchor, signatures, evidence })
    }

    fn status(&mut self) -> Option<StatusInput<'a>> {
        let (said, issuer) = (self.said()?, self.identifier()?);
        let reference = match self.byte()? {
            0 => Reference::Absent,
            1 => Reference::Said(self.said()?),
            2 => Reference::Block,
            _ => return None,
        };
        let registry = if self.count(1)? == 1 { Some(self.registry()?) } else { None };
        let credential = if self.count(1)? == 1 { Some(self.credential()?) } else { None };
        let issuer_state = if self.count(1)? == 1 { Some(self.identifier()?) } else { None };
        self.end()?;
        Some(StatusInput { said, issuer, reference, registry, credential, issuer_state })
    }
}

pub fn attempt<'a, K: Keys>(bytes: &'a [u8], keys: &K, salt: usize) -> Option<Attempt<'a>> {
    Reader::new(bytes, keys, salt).attempt()
}

pub fn registry<K: Keys>(bytes: &[u8], keys: &K) -> Option<RegistryState> {
    let mut reader = Reader::new(bytes, keys, 0);
    let state = reader.registry()?;
    reader.end()?;
    Some(state)
}

pub fn credential<K: Keys>(bytes: &[u8], keys: &K) -> Option<CredentialState> {
    let mut reader = Reader::new(bytes, keys, 0);
    let state = reader.credential()?;
    reader.end()?;
    Some(state)
}

pub fn status<'a, K: Keys>(bytes: &'a [u8], keys: &K) -> Option<StatusInput<'a>> {
    Reader::new(bytes, keys, 0).status()
}

/// An anchoring event as one of three kinds of key events: the folds read of all of them the same four things.
fn key_event<'a>(salt: usize, prefix: Identifier<'a>, sn: Number, said: Said<'a>, anchors: Vec<Seal<'a>>) -> KeriEvent<'a> {
    let prior = said.clone();
    match salt % 3 {
        0 => KeriEvent::Inception(inception(prefix, sn, said, anchors)),
        1 => KeriEvent::Interaction(InteractionEvent { prefix, sn, said, prior, anchors }),
        _ => KeriEvent::Rotation(RotationEvent {
            prefix,
            sn,
            said,
            prior,
            keys: vec![],
            threshold: SigningThreshold::Simple(1),
            next_keys: vec![],
            next_threshold: SigningThreshold::Simple(1),
            removals: vec![],
            additions: vec![],
            witness_threshold: Toad::from_wire(0),
            anchors,
        }),
    }
}

pub fn inception<'a>(prefix: Identifier<'a>, sn: Number, said: Said<'a>, anchors: Vec<Seal<'a>>) -> InceptionEvent<'a> {
    InceptionEvent {
        prefix,
        sn,
        said,
        keys: vec![],
        threshold: SigningThreshold::Simple(1),
        next_keys: vec![],
        next_threshold: SigningThreshold::Simple(1),
        witnesses: vec![],
        witness_threshold: Toad::from_wire(0),
        config: vec![],
        anchors,
    }
}
