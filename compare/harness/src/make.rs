//! Sound attempts of every kind, with the states that they need. Faults are put into them afterwards.
use crate::keys::Prim;
use crate::random::Rng;
use crate::scene::{Anchor, Attempt, Credential, Evidence, Registry, Seal, Status};

#[derive(Clone, Copy, PartialEq, Eq, Debug)]
pub enum Fold {
    RegistryIncept,
    RegistryIngest,
    CredentialIncept,
    CredentialIngest,
}

pub const FOLDS: [Fold; 4] = [Fold::RegistryIncept, Fold::RegistryIngest, Fold::CredentialIncept, Fold::CredentialIngest];

pub const NO_BACKERS: u8 = 3;

/// A call of a fold: those of the states that it does not take stand there unused.
#[derive(Clone, Debug)]
pub struct Scene {
    pub fold: Fold,
    pub registry: Registry,
    pub credential: Credential,
    pub attempt: Attempt,
}

pub fn fold_of(kind: u8) -> Fold {
    match kind {
        1 => Fold::RegistryIncept,
        2 => Fold::RegistryIngest,
        3 | 5 => Fold::CredentialIncept,
        _ => Fold::CredentialIngest,
    }
}

/// Traits, with or without NoBackers.
fn configs(rng: &mut Rng, backerless: bool) -> Vec<u8> {
    let n = *rng.pick(&[0, 0, 0, 1, 2, 7, 8]);
    let mut all: Vec<u8> = (0..n).map(|_| *rng.pick(&[1, 2, 4, 5, 6])).collect();
    if backerless {
        match all.len() {
            0 => all.push(NO_BACKERS),
            n => all[rng.below(n)] = NO_BACKERS,
        }
    }
    all
}

pub fn toad(rng: &mut Rng, backers: usize) -> u32 {
    match backers {
        0 => 0,
        n if rng.once_in(3) => *rng.pick(&[1, n as u32]),
        n => rng.between(1, n) as u32,
    }
}

/// A registry that keeps to the reading rules.
pub fn registry(rng: &mut Rng, backerless: bool) -> Registry {
    let n = if backerless { 0 } else { rng.backers() };
    let (id, sn) = (rng.said(), rng.sn());
    Registry {
        id,
        issuer: rng.identifier(),
        sn,
        latest: if sn == 0 { id } else { rng.said() },
        toad: toad(rng, n),
        configs: configs(rng, backerless),
        backers: rng.different(n, &[]),
    }
}

pub fn credential(rng: &mut Rng, registry: &Prim, sn: u128) -> Credential {
    Credential { registry: *registry, credential: rng.said(), sn, head: rng.said() }
}

/// Signatures of which at least `toad` different backers' are good: in any order, some more than once, some failed, some of nobody.
pub fn signatures(rng: &mut Rng, backers: usize, toad: u32) -> Vec<(u32, u8)> {
    let mut indices: Vec<u32> = (0..backers as u32).collect();
    rng.shuffle(&mut indices);
    let good = if rng.once_in(2) { toad as usize } else { rng.between(toad as usize, backers.max(toad as usize)) };
    let mut all: Vec<(u32, u8)> = indices.iter().take(good).map(|i| (*i, 1)).collect();
    if rng.once_in(3) {
        for i in indices.iter().skip(good).take(2) {
            all.push((*i, 0));
        }
    }
    if rng.once_in(4) && !all.is_empty() {
        let again = all[rng.below(all.len())];
        all.push(again);
    }
    if rng.once_in(5) {
        all.push((*rng.pick(&[backers as u32, backers as u32 + 1, 16, 255, 256, 1 << 31, u32::MAX]), rng.below(2) as u8));
    }
    if rng.once_in(40) && !all.is_empty() {
        while all.len() < 64 {
            all.push(all[rng.below(all.len())]);
        }
    }
    rng.shuffle(&mut all);
    all
}

/// Any anchoring event: a decoy where it is not looked at.
fn any_anchor(rng: &mut Rng) -> Anchor {
    let seals = (0..rng.below(3)).map(|_| any_seal(rng)).collect();
    Anchor { prefix: rng.identifier(), sn: rng.sn(), said: rng.said(), seals }
}

pub fn any_seal(rng: &mut Rng) -> Seal {
    Seal { kind: rng.between(1, 8) as u8, i: rng.identifier(), s: rng.sn(), d: rng.said() }
}

/// An event as it stands in the first six sections, and what its anchoring event has to seal.
struct Event {
    attempt: Attempt,
    i: Prim,
    s: u128,
}

fn event(kind: u8, primitives: Vec<Prim>, i: Prim, s: u128) -> Event {
    let attempt = Attempt {
        kind,
        primitives,
        numbers: vec![],
        configs: vec![],
        backers: vec![],
        additions: vec![],
        own: vec![],
        source: vec![],
        anchor: vec![],
        signatures: vec![],
        evidence: vec![],
    };
    Event { attempt, i, s }
}

fn vcp(rng: &mut Rng) -> Event {
    let said = rng.said();
    let backerless = rng.once_in(4);
    let n = if backerless { 0 } else { rng.backers() };
    let mut e = event(1, vec![said, rng.identifier()], said, 0);
    let toad = toad(rng, n);
    e.attempt.numbers = vec![toad.into()];
    e.attempt.configs = configs(rng, backerless);
    e.attempt.backers = rng.different(n, &[]);
    e.attempt.signatures = signatures(rng, n, toad);
    e
}

fn vrt(rng: &mut Rng, held: &Registry) -> Event {
    let sn = held.sn.wrapping_add(1);
    let mut e = event(2, vec![rng.said(), held.id, held.latest], held.id, sn);
    let mut cuts = held.backers.clone();
    rng.shuffle(&mut cuts);
    cuts.truncate(rng.between(0, held.backers.len()));
    let kept = held.backers.len() - cuts.len();
    let most = 16_usize.saturating_sub(kept);
    let n = *rng.pick(&[0, 1, 1, 2, 3, most]);
    e.attempt.additions = rng.different(n.min(most), &held.backers);
    e.attempt.backers = cuts;
    let members = kept + e.attempt.additions.len();
    let toad = toad(rng, members);
    e.attempt.numbers = vec![sn, toad.into()];
    e.attempt.signatures = signatures(rng, members, toad);
    e
}

/// An iss, rev, bis or brv.
fn of_credential(rng: &mut Rng, kind: u8, registry: &Registry, held: &Credential) -> Event {
    let (said, c, r) = (rng.said(), held.credential, registry.id);
    let (primitives, s) = match kind {
        3 | 5 => (vec![said, c, r], 0),
        4 => (vec![said, c, r, held.head], 1),
        _ => (vec![said, c, held.head], 1),
    };
    event(kind, primitives, c, s)
}

/// The seal, the evidence and the receipts of a bis or brv.
fn backed(rng: &mut Rng, e: &mut Event, registry: &Registry, backer: bool) {
    let mut state = registry.clone();
    if backer && rng.once_in(2) {
        e.attempt.evidence = vec![Evidence::Backer];
    } else {
        // Mostly a state that the registry once had.
        if !rng.once_in(4) {
            let n = rng.backers().max(1);
            state.sn = rng.sn();
            state.latest = rng.said();
            state.backers = rng.different(n, &[]);
            state.toad = toad(rng, n);
        }
        e.attempt.evidence = vec![Evidence::BackerAt(Box::new(state.clone()))];
    }
    e.attempt.own = vec![Seal { kind: 4, i: registry.id, s: state.sn, d: state.latest }];
    e.attempt.signatures = signatures(rng, state.backers.len(), state.toad);
}

/// The source, the anchoring event where it is looked for, and the issuer as evidence.
fn anchored(rng: &mut Rng, e: Event, issuer: &Prim) -> Attempt {
    let Event { mut attempt, i, s } = e;
    let (sn, said) = (rng.sn(), rng.said());
    let right = Anchor { prefix: *issuer, sn, said, seals: vec![Seal { kind: 4, i, s, d: attempt.primitives[0] }] };
    attempt.source = vec![(sn, said)];
    let by_issuer = attempt.evidence.is_empty();
    let (message, evidence) = match (by_issuer && attempt.kind != 1, rng.below(4)) {
        (true, 0) => (vec![], vec![right]),
        (true, 1) => (vec![any_anchor(rng)], vec![right]),
        (true, 2) => (vec![right.clone()], vec![right]),
        (true, _) => (vec![right], vec![]),
        (false, 0) => (vec![right], vec![any_anchor(rng)]),
        (false, _) => (vec![right], vec![]),
    };
    attempt.anchor = message;
    if by_issuer {
        attempt.evidence = vec![Evidence::Issuer(*issuer, evidence)];
        if attempt.kind > 2 && rng.once_in(3) {
            attempt.signatures = signatures(rng, 3, 1);
        }
    }
    attempt
}

/// An attempt of this kind that follows on these states. `backer` allows evidence 2.
pub fn attempt(rng: &mut Rng, kind: u8, registry: &Registry, held: &Credential, backer: bool) -> Attempt {
    let mut e = match kind {
        1 => vcp(rng),
        2 => vrt(rng, registry),
        _ => of_credential(rng, kind, registry, held),
    };
    if kind >= 5 {
        backed(rng, &mut e, registry, backer);
    }
    let issuer = if kind == 1 { e.attempt.primitives[1] } else { registry.issuer };
    anchored(rng, e, &issuer)
}

pub fn scene(rng: &mut Rng, kind: u8) -> Scene {
    let registry = registry(rng, matches!(kind, 3 | 4));
    let credential = credential(rng, &registry.id, 0);
    let attempt = attempt(rng, kind, &registry, &credential, true);
    Scene { fold: fold_of(kind), registry, credential, attempt }
}

pub fn status(rng: &mut Rng) -> Status {
    let backerless = rng.once_in(3);
    let registry = registry(rng, backerless);
    let credential = credential(rng, &registry.id, 0);
    Status {
        said: credential.credential,
        issuer: registry.issuer,
        reference: 1,
        registry_said: registry.id,
        issuers: vec![registry.issuer],
        registries: vec![registry],
        credentials: vec![credential],
    }
}
