//! Attempts, states and inputs as plain parts, whether or not they keep to any rule, and the bytes of them ("Bytes"). What is generated
//! is made here; what is judged is read by `decode`, which knows nothing of this file.
use crate::keys::Prim;

#[derive(Clone, PartialEq, Eq, Debug)]
pub struct Registry {
    pub id: Prim,
    pub issuer: Prim,
    pub sn: u128,
    pub latest: Prim,
    pub toad: u32,
    pub configs: Vec<u8>,
    pub backers: Vec<Prim>,
}

#[derive(Clone, PartialEq, Eq, Debug)]
pub struct Credential {
    pub registry: Prim,
    pub credential: Prim,
    pub sn: u128,
    pub head: Prim,
}

/// Only a seal of kind 4 has i, s and d.
#[derive(Clone, PartialEq, Eq, Debug)]
pub struct Seal {
    pub kind: u8,
    pub i: Prim,
    pub s: u128,
    pub d: Prim,
}

#[derive(Clone, PartialEq, Eq, Debug)]
pub struct Anchor {
    pub prefix: Prim,
    pub sn: u128,
    pub said: Prim,
    pub seals: Vec<Seal>,
}

#[derive(Clone, PartialEq, Eq, Debug)]
pub enum Evidence {
    Missing,
    Issuer(Prim, Vec<Anchor>),
    Backer,
    BackerAt(Box<Registry>),
    Other(u8),
}

#[derive(Clone, PartialEq, Eq, Debug)]
pub struct Attempt {
    pub kind: u8,
    pub primitives: Vec<Prim>,
    pub numbers: Vec<u128>,
    pub configs: Vec<u8>,
    pub backers: Vec<Prim>,
    pub additions: Vec<Prim>,
    pub own: Vec<Seal>,
    pub source: Vec<(u128, Prim)>,
    pub anchor: Vec<Anchor>,
    pub signatures: Vec<(u32, u8)>,
    pub evidence: Vec<Evidence>,
}

#[derive(Clone, PartialEq, Eq, Debug)]
pub struct Status {
    pub said: Prim,
    pub issuer: Prim,
    pub reference: u8,
    pub registry_said: Prim,
    pub registries: Vec<Registry>,
    pub credentials: Vec<Credential>,
    pub issuers: Vec<Prim>,
}

fn section<T>(out: &mut Vec<u8>, all: &[T], put: impl Fn(&mut Vec<u8>, &T)) {
    out.push(all.len() as u8);
    all.iter().for_each(|x| put(out, x));
}

fn prims(out: &mut Vec<u8>, all: &[Prim]) {
    section(out, all, |out, p| out.extend_from_slice(p));
}

fn bytes_of(out: &mut Vec<u8>, all: &[u8]) {
    section(out, all, |out, b| out.push(*b));
}

fn number(out: &mut Vec<u8>, n: u128) {
    out.extend_from_slice(&n.to_be_bytes());
}

impl Registry {
    pub fn put(&self, out: &mut Vec<u8>) {
        out.extend_from_slice(&self.id);
        out.extend_from_slice(&self.issuer);
        number(out, self.sn);
        out.extend_from_slice(&self.latest);
        out.extend_from_slice(&self.toad.to_be_bytes());
        bytes_of(out, &self.configs);
        prims(out, &self.backers);
    }

    pub fn bytes(&self) -> Vec<u8> {
        let mut out = Vec::with_capacity(700);
        self.put(&mut out);
        out
    }
}

impl Credential {
    pub fn put(&self, out: &mut Vec<u8>) {
        out.extend_from_slice(&self.registry);
        out.extend_from_slice(&self.credential);
        number(out, self.sn);
        out.extend_from_slice(&self.head);
    }

    pub fn bytes(&self) -> Vec<u8> {
        let mut out = Vec::with_capacity(115);
        self.put(&mut out);
        out
    }
}

impl Seal {
    fn put(&self, out: &mut Vec<u8>) {
        out.push(self.kind);
        if self.kind == 4 {
            out.extend_from_slice(&self.i);
            number(out, self.s);
            out.extend_from_slice(&self.d);
        }
    }
}

impl Anchor {
    fn put(&self, out: &mut Vec<u8>) {
        out.extend_from_slice(&self.prefix);
        number(out, self.sn);
        out.extend_from_slice(&self.said);
        section(out, &self.seals, |out, s| s.put(out));
    }
}

impl Evidence {
    fn put(&self, out: &mut Vec<u8>) {
        match self {
            Self::Missing => out.push(0),
            Self::Issuer(prefix, anchors) => {
                out.push(1);
                out.extend_from_slice(prefix);
                section(out, anchors, |out, a| a.put(out));
            }
            Self::Backer => out.push(2),
            Self::BackerAt(state) => {
                out.push(3);
                state.put(out);
            }
            Self::Other(byte) => out.push(*byte),
        }
    }
}

impl Attempt {
    pub fn bytes(&self) -> Vec<u8> {
        let mut out = Vec::with_capacity(2200);
        out.push(self.kind);
        prims(&mut out, &self.primitives);
        section(&mut out, &self.numbers, |out, n| number(out, *n));
        bytes_of(&mut out, &self.configs);
        prims(&mut out, &self.backers);
        prims(&mut out, &self.additions);
        section(&mut out, &self.own, |out, s| s.put(out));
        section(&mut out, &self.source, |out, (sn, said)| {
            number(out, *sn);
            out.extend_from_slice(said);
        });
        section(&mut out, &self.anchor, |out, a| a.put(out));
        section(&mut out, &self.signatures, |out, (index, verdict)| {
            out.extend_from_slice(&index.to_be_bytes());
            out.push(*verdict);
        });
        section(&mut out, &self.evidence, |out, e| e.put(out));
        out
    }
}

impl Status {
    pub fn bytes(&self) -> Vec<u8> {
        let mut out = Vec::with_capacity(1000);
        out.extend_from_slice(&self.said);
        out.extend_from_slice(&self.issuer);
        out.push(self.reference);
        if self.reference == 1 {
            out.extend_from_slice(&self.registry_said);
        }
        section(&mut out, &self.registries, |out, r| r.put(out));
        section(&mut out, &self.credentials, |out, c| c.put(out));
        prims(&mut out, &self.issuers);
        out
    }
}

/// The image of states, whatever they are.
pub fn image(registries: &[Registry], rows: &[Credential]) -> Vec<u8> {
    let mut out = Vec::with_capacity(40_000);
    out.extend_from_slice(&(registries.len() as u16).to_be_bytes());
    registries.iter().for_each(|r| r.put(&mut out));
    out.extend_from_slice(&(rows.len() as u16).to_be_bytes());
    rows.iter().for_each(|r| r.put(&mut out));
    out
}
