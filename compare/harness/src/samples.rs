//! Attempts of given sizes, all of them accepted, for measuring.
use crate::keys::Prim;
use crate::make::{NO_BACKERS, Scene, fold_of};
use crate::random::Rng;
use crate::scene::{Anchor, Attempt, Credential, Evidence, Registry, Seal};

#[derive(Clone, Copy)]
pub struct Size {
    pub backers: usize,
    pub signatures: usize,
    /// Of a rotation: how many are cut, and how many added.
    pub exchanged: usize,
}

pub const SMALL: Size = Size { backers: 1, signatures: 1, exchanged: 1 };
pub const TYPICAL: Size = Size { backers: 4, signatures: 4, exchanged: 1 };
pub const FULL: Size = Size { backers: 16, signatures: 64, exchanged: 16 };

fn basic(rng: &mut Rng) -> Prim {
    let mut p = rng.said();
    p[0] = b'B';
    p
}

pub fn registry(rng: &mut Rng, backers: usize) -> Registry {
    let id = rng.said();
    Registry {
        id,
        issuer: rng.said(),
        sn: 0,
        latest: id,
        toad: backers as u32,
        configs: if backers == 0 { vec![NO_BACKERS] } else { vec![] },
        backers: (0..backers).map(|_| basic(rng)).collect(),
    }
}

/// An attempt that these states accept. Of an iss or rev the signatures are read and not judged.
pub fn attempt(rng: &mut Rng, kind: u8, registry: &Registry, held: &Credential, size: Size, earlier: bool) -> Attempt {
    let said = rng.said();
    let (c, r) = (held.credential, registry.id);
    let (primitives, i, s) = match kind {
        1 => (vec![said, registry.issuer], said, 0),
        2 => (vec![said, r, registry.latest], r, registry.sn + 1),
        3 | 5 => (vec![said, c, r], c, 0),
        4 => (vec![said, c, r, held.head], c, 1),
        _ => (vec![said, c, held.head], c, 1),
    };
    let toad = size.backers as u128;
    let (sn, source) = (7, rng.said());
    let anchor = Anchor { prefix: registry.issuer, sn, said: source, seals: vec![Seal { kind: 4, i, s, d: said }] };
    let by_backers = kind >= 5;
    Attempt {
        kind,
        primitives,
        numbers: match kind {
            1 => vec![toad],
            2 => vec![registry.sn + 1, toad],
            _ => vec![],
        },
        configs: vec![],
        backers: match kind {
            1 => (0..size.backers).map(|_| basic(rng)).collect(),
            2 => registry.backers[..size.exchanged].to_vec(),
            _ => vec![],
        },
        additions: if kind == 2 { (0..size.exchanged).map(|_| basic(rng)).collect() } else { vec![] },
        own: if by_backers { vec![Seal { kind: 4, i: r, s: registry.sn, d: registry.latest }] } else { vec![] },
        source: vec![(sn, source)],
        anchor: vec![anchor],
        signatures: (0..size.signatures as u32).map(|k| (k % size.backers.max(1) as u32, 1)).collect(),
        evidence: vec![match (by_backers, earlier) {
            (false, _) => Evidence::Issuer(registry.issuer, vec![]),
            (true, false) => Evidence::Backer,
            (true, true) => Evidence::BackerAt(Box::new(registry.clone())),
        }],
    }
}

pub fn scene(rng: &mut Rng, kind: u8, size: Size, earlier: bool) -> Scene {
    let backers = if matches!(kind, 3 | 4) { 0 } else { size.backers };
    let registry = registry(rng, backers);
    let credential = Credential { registry: registry.id, credential: rng.said(), sn: 0, head: rng.said() };
    let attempt = attempt(rng, kind, &registry, &credential, size, earlier);
    Scene { fold: fold_of(kind), registry, credential, attempt }
}
