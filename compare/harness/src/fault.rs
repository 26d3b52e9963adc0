//! Faults: each breaks a rule of a sound call, or bends it to an end where a rule turns. Two of them together are a pair of broken rules.
use crate::keys::Prim;
use crate::make::{self, FOLDS, NO_BACKERS, Scene, any_seal};
use crate::random::Rng;
use crate::scene::{Anchor, Evidence, Registry, Seal};

type Apply = fn(&mut Scene, &mut Rng);

pub struct Fault {
    pub name: &'static str,
    /// A bit for each kind, from vcp on, whose attempts it is put into.
    kinds: u8,
    pub apply: Apply,
}

impl Fault {
    pub fn fits(&self, kind: u8) -> bool {
        self.kinds >> (kind - 1) & 1 == 1
    }
}

const ALL: u8 = 0b11_1111;
const HELD: u8 = 0b11_1110;
const VCP: u8 = 1;
const VRT: u8 = 1 << 1;
const CREDENTIAL: u8 = 0b11_1100;
const REVOKE: u8 = 0b10_1000;
const BACKED: u8 = 0b11_0000;
const SIGNED: u8 = 0b11_0011;

const fn fault(name: &'static str, kinds: u8, apply: Apply) -> Fault {
    Fault { name, kinds, apply }
}

/// The anchoring event that is looked at, where there is one.
fn used(s: &mut Scene) -> Option<&mut Anchor> {
    if matches!(s.attempt.kind, 2..=4)
        && let Some(Evidence::Issuer(_, anchors)) = s.attempt.evidence.first_mut()
        && !anchors.is_empty()
    {
        return anchors.first_mut();
    }
    s.attempt.anchor.first_mut()
}

fn seal(s: &mut Scene, change: impl FnOnce(&mut Seal)) {
    if let Some(seal) = used(s).and_then(|a| a.seals.first_mut()) {
        change(seal);
    }
}

fn own(s: &mut Scene, change: impl FnOnce(&mut Seal)) {
    if let Some(seal) = s.attempt.own.first_mut() {
        change(seal);
    }
}

/// The state in BackerAt.
fn earlier(s: &mut Scene, change: impl FnOnce(&mut Registry)) {
    if let Some(Evidence::BackerAt(state)) = s.attempt.evidence.first_mut() {
        change(state);
    }
}

fn primitive(s: &mut Scene, at: usize, rng: &mut Rng) {
    if let Some(p) = s.attempt.primitives.get_mut(at) {
        *p = rng.near(p);
    }
}

fn basic(rng: &mut Rng, p: &mut Prim) {
    p[0] = *rng.pick(b"BD");
}

fn repeat(rng: &mut Rng, list: &mut Vec<Prim>) {
    if !list.is_empty() {
        let again = *rng.pick(list);
        let at = rng.between(0, list.len());
        list.insert(at, again);
        list.truncate(16);
    }
}

fn wrong_toad(rng: &mut Rng, n: usize) -> u32 {
    *rng.pick(&[0, n as u32 + 1, 17, u32::MAX, 1 << 31, 1])
}

fn set_toad(s: &mut Scene, toad: u128) {
    if let Some(last) = s.attempt.numbers.last_mut() {
        *last = toad;
    }
}

/// Where the event's registry stands in section 1.
const fn registry_place(kind: u8) -> usize {
    match kind {
        2 => 1,
        3..=5 => 2,
        _ => usize::MAX,
    }
}

const fn prior_place(kind: u8) -> usize {
    match kind {
        2 | 6 => 2,
        4 => 3,
        _ => usize::MAX,
    }
}

/// Another credential in the event, and in the seal of its anchoring event too.
fn other_credential(s: &mut Scene, rng: &mut Rng) {
    if let Some(p) = s.attempt.primitives.get_mut(1) {
        let other = rng.near(p);
        *p = other;
        seal(s, |seal| seal.i = other);
    }
}

/// An attempt of another kind that would be sound, and the states as they are.
fn other_kind(s: &mut Scene, rng: &mut Rng) {
    let kind = rng.between(1, 6) as u8;
    s.attempt = make::attempt(rng, kind, &s.registry, &s.credential, true);
}

fn swap_anchors(s: &mut Scene, _: &mut Rng) {
    let message = std::mem::take(&mut s.attempt.anchor);
    match s.attempt.evidence.first_mut() {
        Some(Evidence::Issuer(_, anchors)) => s.attempt.anchor = std::mem::replace(anchors, message),
        _ => s.attempt.anchor = message,
    }
}

fn too_many(s: &mut Scene, rng: &mut Rng) {
    let kept = s.registry.backers.iter().filter(|b| !s.attempt.backers.contains(b)).count();
    let more = rng.between(17, 18).saturating_sub(kept).clamp(1, 16);
    s.attempt.additions = rng.different(more, &s.registry.backers);
    let members = (kept + more) as u32;
    let toad = *rng.pick(&[0, 1, members, members + 1]);
    set_toad(s, toad.into());
    s.attempt.signatures = (0..members.min(64)).map(|i| (i, u8::from(!rng.once_in(9)))).collect();
}

fn one_fewer(s: &mut Scene, rng: &mut Rng) {
    let good: Vec<u32> = s.attempt.signatures.iter().filter(|x| x.1 == 1).map(|x| x.0).collect();
    if !good.is_empty() {
        let gone = *rng.pick(&good);
        s.attempt.signatures.retain(|x| x.0 != gone);
    }
}

fn both_verdicts(s: &mut Scene, rng: &mut Rng) {
    let mut more: Vec<(u32, u8)> = s.attempt.signatures.iter().map(|(i, v)| (*i, 1 - v % 2)).collect();
    s.attempt.signatures.append(&mut more);
    rng.shuffle(&mut s.attempt.signatures);
    s.attempt.signatures.truncate(64);
}

fn sixty_four(s: &mut Scene, rng: &mut Rng) {
    while s.attempt.signatures.len() < 64 {
        let next = (rng.below(18) as u32, rng.below(2) as u8);
        s.attempt.signatures.push(next);
    }
}

fn overlap(s: &mut Scene, rng: &mut Rng) {
    if !s.attempt.backers.is_empty() {
        let both = *rng.pick(&s.attempt.backers);
        let at = rng.between(0, s.attempt.additions.len());
        s.attempt.additions.insert(at, both);
        s.attempt.additions.truncate(16);
    }
}

fn stranger_cut(s: &mut Scene, rng: &mut Rng) {
    let stranger = match s.registry.backers.first() {
        Some(p) if rng.once_in(3) => rng.near(p),
        _ => rng.different(1, &s.registry.backers)[0],
    };
    let at = rng.between(0, s.attempt.backers.len());
    s.attempt.backers.insert(at, stranger);
    s.attempt.backers.truncate(16);
}

fn present_addition(s: &mut Scene, rng: &mut Rng) {
    let Scene { registry, attempt, .. } = s;
    let free: Vec<Prim> = registry.backers.iter().filter(|b| !attempt.backers.contains(b)).copied().collect();
    if let Some(present) = (!free.is_empty()).then(|| *rng.pick(&free)) {
        let at = rng.between(0, attempt.additions.len());
        attempt.additions.insert(at, present);
        attempt.additions.truncate(16);
    }
}

fn no_anchor(s: &mut Scene) {
    s.attempt.anchor.clear();
    if let Some(Evidence::Issuer(_, anchors)) = s.attempt.evidence.first_mut() {
        anchors.clear();
    }
}

fn second_seal(s: &mut Scene, rng: &mut Rng) {
    if let Some(anchor) = used(s) {
        let other = if rng.once_in(3) { anchor.seals.first().cloned() } else { None };
        let other = other.unwrap_or_else(|| any_seal(rng));
        let at = rng.between(0, anchor.seals.len());
        anchor.seals.insert(at, other);
        if rng.once_in(4) {
            anchor.seals.resize(8, Seal { kind: 1, ..any_seal(rng) });
        }
    }
}

/// Faults of the anchoring event, its source and the evidence.
const ANCHORS: &[Fault] = &[
    fault("no source", ALL, |s, _| s.attempt.source.clear()),
    fault("no anchoring event", ALL, |s, _| no_anchor(s)),
    fault("none in the message", ALL, |s, _| s.attempt.anchor.clear()),
    fault("anchors exchanged", ALL, swap_anchors),
    fault("source sn", ALL, |s, r| s.attempt.source.iter_mut().for_each(|x| x.0 = r.off(x.0))),
    fault("source said", ALL, |s, r| s.attempt.source.iter_mut().for_each(|x| x.1 = r.near(&x.1))),
    fault("anchor prefix", ALL, |s, r| used(s).into_iter().for_each(|a| a.prefix = r.near(&a.prefix))),
    fault("anchor sn", ALL, |s, r| used(s).into_iter().for_each(|a| a.sn = r.off(a.sn))),
    fault("anchor said", ALL, |s, r| used(s).into_iter().for_each(|a| a.said = r.near(&a.said))),
    fault("no seal", ALL, |s, _| used(s).into_iter().for_each(|a| a.seals.clear())),
    fault("a second seal", ALL, second_seal),
    fault("seal kind", ALL, |s, r| seal(s, |x| x.kind = *r.pick(&[1, 2, 3, 5, 6, 7, 8]))),
    fault("seal i", ALL, |s, r| seal(s, |x| x.i = r.near(&x.i))),
    fault("seal i basic", ALL, |s, r| seal(s, |x| basic(r, &mut x.i))),
    fault("seal s", ALL, |s, r| seal(s, |x| x.s = r.off(x.s))),
    fault("seal d", ALL, |s, r| seal(s, |x| x.d = r.near(&x.d))),
    fault("event said", ALL, |s, r| primitive(s, 0, r)),
    fault("evidence Missing", ALL, |s, _| s.attempt.evidence = vec![Evidence::Missing]),
    fault("evidence Issuer", ALL, |s, _| s.attempt.evidence = vec![Evidence::Issuer(s.registry.issuer, vec![])]),
    fault("evidence Backer", ALL, |s, _| s.attempt.evidence = vec![Evidence::Backer]),
    fault("evidence BackerAt", ALL, |s, _| s.attempt.evidence = vec![Evidence::BackerAt(Box::new(s.registry.clone()))]),
    fault("evidence prefix", ALL, |s, r| {
        if let Some(Evidence::Issuer(p, _)) = s.attempt.evidence.first_mut() {
            *p = r.near(p);
        }
    }),
];

/// Faults of states, and of what an event says about them.
const STATES: &[Fault] = &[
    fault("another fold", ALL, |s, r| s.fold = *r.pick(&FOLDS)),
    fault("another kind", ALL, other_kind),
    fault("registry id", HELD, |s, r| s.registry.id = r.near(&s.registry.id)),
    fault("registry issuer", HELD, |s, r| s.registry.issuer = r.near(&s.registry.issuer)),
    fault("registry sn", HELD, |s, r| s.registry.sn = r.off(s.registry.sn)),
    fault("registry sn at its end", HELD, |s, _| s.registry.sn = u128::MAX),
    fault("registry latest", HELD, |s, r| s.registry.latest = r.near(&s.registry.latest)),
    fault("registry toad", HELD, |s, r| s.registry.toad = wrong_toad(r, s.registry.backers.len())),
    fault("registry backers repeat", HELD, |s, r| repeat(r, &mut s.registry.backers)),
    fault("registry without backers", HELD, |s, _| s.registry.backers.clear()),
    fault("registry backerless", HELD, |s, r| {
        let at = r.between(0, s.registry.configs.len());
        s.registry.configs.insert(at, NO_BACKERS);
        s.registry.configs.truncate(8);
    }),
    fault("registry not backerless", HELD, |s, _| s.registry.configs.retain(|c| *c != NO_BACKERS)),
    fault("event registry", HELD, |s, r| primitive(s, registry_place(s.attempt.kind), r)),
    fault("event prior", HELD, |s, r| primitive(s, prior_place(s.attempt.kind), r)),
    fault("event credential", CREDENTIAL, |s, r| primitive(s, 1, r)),
    fault("another credential", CREDENTIAL, other_credential),
    fault("held registry", REVOKE, |s, r| s.credential.registry = r.near(&s.credential.registry)),
    fault("held credential", REVOKE, |s, r| s.credential.credential = r.near(&s.credential.credential)),
    fault("held sn 1", REVOKE, |s, _| s.credential.sn = 1),
    fault("held sn", REVOKE, |s, r| s.credential.sn = r.off(s.credential.sn)),
    fault("held sn at its end", REVOKE, |s, _| s.credential.sn = u128::MAX),
    fault("held head", REVOKE, |s, r| s.credential.head = r.near(&s.credential.head)),
];

/// Faults of lists, toads, receipts, and of a bis or brv.
const RECEIPTS: &[Fault] = &[
    fault("vcp issuer", VCP, |s, r| primitive(s, 1, r)),
    fault("vcp NoBackers", VCP, |s, _| {
        s.attempt.configs.truncate(7);
        s.attempt.configs.push(NO_BACKERS);
    }),
    fault("list repeats", VCP | VRT, |s, r| repeat(r, &mut s.attempt.backers)),
    fault("toad", VCP | VRT, |s, r| {
        let toad = wrong_toad(r, s.attempt.backers.len() + s.attempt.additions.len());
        set_toad(s, toad.into());
    }),
    fault("additions repeat", VRT, |s, r| repeat(r, &mut s.attempt.additions)),
    fault("cut and added", VRT, overlap),
    fault("cut of a stranger", VRT, stranger_cut),
    fault("addition present", VRT, present_addition),
    fault("too many members", VRT, too_many),
    fault("vrt sn", VRT, |s, r| s.attempt.numbers.iter_mut().take(1).for_each(|n| *n = r.off(*n))),
    fault("vrt sn and seal", VRT, |s, r| {
        let sn = r.off(s.registry.sn.wrapping_add(1));
        s.attempt.numbers.iter_mut().take(1).for_each(|n| *n = sn);
        seal(s, |x| x.s = sn);
    }),
    fault("no signature", SIGNED, |s, _| s.attempt.signatures.clear()),
    fault("one receipt fewer", SIGNED, one_fewer),
    fault("all failed", SIGNED, |s, _| s.attempt.signatures.iter_mut().for_each(|x| x.1 = 0)),
    fault("both verdicts", SIGNED, both_verdicts),
    fault("64 signatures", ALL, sixty_four),
    fault("index out of range", SIGNED, |s, r| s.attempt.signatures.iter_mut().take(1).for_each(|x| x.0 = 16 + r.below(3) as u32)),
    fault("own seal kind", BACKED, |s, r| own(s, |x| x.kind = *r.pick(&[1, 2, 3, 5, 6, 7, 8]))),
    fault("own seal i", BACKED, |s, r| own(s, |x| x.i = r.near(&x.i))),
    fault("own seal i basic", BACKED, |s, r| own(s, |x| basic(r, &mut x.i))),
    fault("own seal s", BACKED, |s, r| own(s, |x| x.s = r.off(x.s))),
    fault("own seal d", BACKED, |s, r| own(s, |x| x.d = r.near(&x.d))),
    fault("earlier id", BACKED, |s, r| earlier(s, |x| x.id = r.near(&x.id))),
    fault("earlier issuer", BACKED, |s, r| earlier(s, |x| x.issuer = r.near(&x.issuer))),
    fault("earlier config", BACKED, |s, r| {
        earlier(s, |x| match x.configs.len() {
            n if n > 1 && r.once_in(2) => x.configs.swap(0, n - 1),
            8 => x.configs.truncate(7),
            _ => x.configs.push(r.between(1, 6) as u8),
        });
    }),
    fault("earlier sn", BACKED, |s, r| earlier(s, |x| x.sn = r.off(x.sn))),
    fault("earlier latest", BACKED, |s, r| earlier(s, |x| x.latest = r.near(&x.latest))),
    fault("earlier toad", BACKED, |s, r| earlier(s, |x| x.toad = wrong_toad(r, x.backers.len()))),
    fault("earlier backers repeat", BACKED, |s, r| earlier(s, |x| repeat(r, &mut x.backers))),
    fault("earlier without backers", BACKED, |s, r| {
        earlier(s, |x| {
            x.backers.clear();
            x.toad = r.below(2) as u32;
        });
    }),
];

fn letter(rng: &mut Rng, p: &mut Prim) {
    p[0] = if rng.once_in(2) { *rng.pick(b"BDEFGHI") } else { *rng.pick(&[0, b'A', b'C', b'J', b'b', 255]) };
}

fn either(rng: &mut Rng, a: &mut Prim, b: &mut Prim) {
    let first = rng.once_in(2);
    letter(rng, if first { a } else { b });
}

fn push_repeated<T: Clone>(list: &mut Vec<T>, n: usize, filler: &T) {
    while list.len() < n {
        list.push(filler.clone());
    }
}

/// Faults against a layout: all of them are refusal 1, or none.
const LAYOUTS: &[Fault] = &[
    fault("kind byte", ALL, |s, r| s.attempt.kind = *r.pick(&[0, 1, 2, 3, 4, 5, 6, 7, 255])),
    fault("letter in section 1", ALL, |s, r| {
        let n = s.attempt.primitives.len();
        let at = r.below(n.max(1));
        s.attempt.primitives.iter_mut().skip(at).take(1).for_each(|p| letter(r, p));
    }),
    fault("letter of a backer", VCP | VRT, |s, r| s.attempt.backers.iter_mut().take(1).for_each(|p| letter(r, p))),
    fault("letter of an addition", VRT, |s, r| s.attempt.additions.iter_mut().take(1).for_each(|p| letter(r, p))),
    fault("letter in a source", ALL, |s, r| s.attempt.source.iter_mut().for_each(|x| letter(r, &mut x.1))),
    fault("letter in an anchor", ALL, |s, r| used(s).into_iter().for_each(|a| either(r, &mut a.prefix, &mut a.said))),
    fault("letter in a seal", ALL, |s, r| seal(s, |x| either(r, &mut x.i, &mut x.d))),
    fault("letter in the own seal", BACKED, |s, r| own(s, |x| either(r, &mut x.i, &mut x.d))),
    fault("letter in the registry", HELD, |s, r| match r.below(4) {
        0 => letter(r, &mut s.registry.id),
        1 => letter(r, &mut s.registry.issuer),
        2 => letter(r, &mut s.registry.latest),
        _ => s.registry.backers.iter_mut().take(1).for_each(|p| letter(r, p)),
    }),
    fault("letter in the credential", REVOKE, |s, r| match r.below(3) {
        0 => letter(r, &mut s.credential.registry),
        1 => letter(r, &mut s.credential.credential),
        _ => letter(r, &mut s.credential.head),
    }),
    fault("a primitive more", ALL, |s, r| s.attempt.primitives.push(r.said())),
    fault("a primitive fewer", ALL, |s, _| s.attempt.primitives.truncate(s.attempt.primitives.len().saturating_sub(1))),
    fault("a number more", ALL, |s, r| s.attempt.numbers.push(r.below(3) as u128)),
    fault("a number fewer", VCP | VRT, |s, _| s.attempt.numbers.truncate(s.attempt.numbers.len().saturating_sub(1))),
    fault("toad above 32 bits", VCP | VRT, |s, r| {
        set_toad(s, 1 << r.between(32, 127));
    }),
    fault("a config byte", ALL, |s, r| s.attempt.configs.push(*r.pick(&[0, 1, 6, 7, 255]))),
    fault("8 config bytes", VCP, |s, _| s.attempt.configs.resize(8, 1)),
    fault("9 config bytes", VCP, |s, _| s.attempt.configs.resize(9, 1)),
    fault("17 backers", VCP | VRT, |s, r| s.attempt.backers = r.different(17, &[])),
    fault("17 additions", VRT, |s, r| s.attempt.additions = r.different(17, &s.registry.backers)),
    fault("a backer too many", ALL, |s, r| s.attempt.backers.push(r.backer())),
    fault("an addition too many", ALL, |s, r| s.attempt.additions.push(r.backer())),
    fault("an own seal more", ALL, |s, r| s.attempt.own.push(any_seal(r))),
    fault("no own seal", BACKED, |s, _| s.attempt.own.clear()),
    fault("own seal byte", BACKED, |s, r| own(s, |x| x.kind = *r.pick(&[0, 9, 255]))),
    fault("seal byte", ALL, |s, r| seal(s, |x| x.kind = *r.pick(&[0, 9, 255]))),
    fault("two sources", ALL, |s, r| s.attempt.source.push((r.sn(), r.said()))),
    fault("two anchors", ALL, |s, _| {
        let first = s.attempt.anchor.first().cloned();
        s.attempt.anchor.extend(first);
    }),
    fault("9 seals", ALL, |s, r| used(s).into_iter().for_each(|a| push_repeated(&mut a.seals, 9, &any_seal(r)))),
    fault("8 seals", ALL, |s, r| used(s).into_iter().for_each(|a| push_repeated(&mut a.seals, 8, &any_seal(r)))),
    fault("a verdict", ALL, |s, r| s.attempt.signatures.iter_mut().take(1).for_each(|x| x.1 = *r.pick(&[2, 3, 255]))),
    fault("65 signatures", ALL, |s, r| push_repeated(&mut s.attempt.signatures, 65, &(r.below(16) as u32, 1))),
    fault("no evidence", ALL, |s, _| s.attempt.evidence.clear()),
    fault("two evidences", ALL, |s, _| s.attempt.evidence.push(Evidence::Missing)),
    fault("evidence byte", ALL, |s, r| s.attempt.evidence = vec![Evidence::Other(*r.pick(&[4, 5, 255]))]),
    fault("letter in the evidence", ALL, |s, r| match s.attempt.evidence.first_mut() {
        Some(Evidence::Issuer(p, _)) => letter(r, p),
        Some(Evidence::BackerAt(x)) => either(r, &mut x.id, &mut x.latest),
        _ => {}
    }),
    fault("earlier state's lists", BACKED, |s, r| {
        earlier(s, |x| match r.below(4) {
            0 => x.configs = vec![*r.pick(&[0, 7, 255])],
            1 => x.configs.resize(9, 1),
            2 => x.backers = r.different(17, &[]),
            _ => x.configs.resize(8, 1),
        });
    }),
    fault("registry's lists", HELD, |s, r| match r.below(5) {
        0 => s.registry.configs = vec![*r.pick(&[0, 7, 255])],
        1 => s.registry.configs.resize(9, 1),
        2 => s.registry.backers = r.different(17, &[]),
        3 => s.registry.configs.resize(8, 1),
        _ => s.registry.backers = r.different(16, &[]),
    }),
];

/// How many of the faults that fit a kind are against other rules than a layout. They stand first.
pub fn rules(kind: u8) -> usize {
    [ANCHORS, STATES, RECEIPTS].into_iter().flatten().filter(|f| f.fits(kind)).count()
}

/// All faults that fit a kind.
pub fn faults(kind: u8) -> Vec<&'static Fault> {
    [ANCHORS, STATES, RECEIPTS, LAYOUTS].into_iter().flatten().filter(|f| f.fits(kind)).collect()
}
