//! Two orders of one list of attempts ("Two orders"): the library is run on both, and all that the rules promise is compared.
use crate::answer::REPORT;
use crate::check::hex;
use crate::damage::{DAMAGES, damage};
use crate::decode;
use crate::fault::faults;
use crate::host::Block;
use crate::keys::{Prim, Verdicts};
use crate::make::{self, NO_BACKERS, Scene};
use crate::memory::{Held, put_registry, put_row};
use crate::random::Rng;
use crate::scene::{Credential, Evidence, Registry, Seal};
use crate::world::{BREAKS, World, break_rule};
use std::collections::{HashMap, HashSet};

/// What keeps its order: the rotations of one registry, the attempts that name one pair.
#[derive(Clone, PartialEq, Eq, Hash)]
enum Group {
    Registry(Prim),
    Pair(Prim, Prim),
}

struct Entry {
    bytes: Vec<u8>,
    group: Option<Group>,
    /// Whether it is an iss or bis that can be read.
    issues: bool,
}

/// What an attempt names, told from its bytes by an independent reader. Malformed bytes name nothing. Nothing is given for an attempt
/// that may not be in the list: a vcp, and without `backer` one that takes the present head as its authority.
fn entry(bytes: Vec<u8>, backer: bool) -> Option<Entry> {
    use keri_events::{Identifier, Said, Seal as Own, TelEvent};
    let prim = |s: &Said<'_>| {
        let mut p = [s.code().letter(); 33];
        p[1..].copy_from_slice(s.raw());
        p
    };
    let read = decode::attempt(&bytes, &Verdicts, 0);
    if !backer
        && let Some(decode::Attempt { event: TelEvent::BackedIssue(_) | TelEvent::BackedRevoke(_), evidence, .. }) = &read
        && matches!(evidence, decode::Evidence::Backer)
    {
        return None;
    }
    let (group, issues) = match read.map(|a| a.event) {
        None => (None, false),
        Some(TelEvent::RegistryInception(_)) => return None,
        Some(TelEvent::RegistryRotation(e)) => (Some(Group::Registry(prim(e.registry()))), false),
        Some(TelEvent::Issue(e)) => (Some(Group::Pair(prim(e.registry_said()), prim(e.credential_said()))), true),
        Some(TelEvent::BackedIssue(e)) => (Some(Group::Pair(prim(e.registry_said()), prim(e.credential_said()))), true),
        Some(TelEvent::Revoke(e)) => (Some(Group::Pair(prim(e.registry_said()), prim(e.credential_said()))), false),
        Some(TelEvent::BackedRevoke(e)) => match e.anchor() {
            Own::Event { i: Identifier::SelfAddressing(r), .. } => (Some(Group::Pair(prim(r), prim(e.credential_said()))), false),
            _ => (None, false),
        },
    };
    Some(Entry { bytes, group, issues })
}

/// A list that has chains: rotations of one registry on each other, an issue and its revocation, with repeats, faults and broken bytes
/// among them. With `backer` some take the present head as their authority.
fn list(rng: &mut Rng, world: &World, backer: bool) -> Vec<Entry> {
    let mut now = world.clone();
    let mut all: Vec<Vec<u8>> = vec![];
    for _ in 0..rng.between(2, 40) {
        let mut scene = now.scene(rng, backer, false);
        earlier_head(rng, world, &mut scene);
        let faulty = rng.once_in(4);
        if faulty {
            let fits = faults(scene.attempt.kind);
            (rng.pick(&fits).apply)(&mut scene, rng);
        } else {
            follow(&mut now, &scene);
        }
        let mut bytes = scene.attempt.bytes();
        if rng.once_in(16) {
            let which = rng.below(DAMAGES);
            damage(rng, &mut bytes, which);
        }
        if rng.once_in(10) {
            all.push(bytes.clone());
        }
        all.push(bytes);
    }
    rng.shuffle_some(&mut all);
    all.into_iter().filter_map(|bytes| entry(bytes, backer)).collect()
}

/// What the ledger would hold behind a sound attempt, as far as the next attempts need it.
fn follow(now: &mut World, scene: &Scene) {
    let Some(k) = now.registries.iter().position(|r| r.id == scene.registry.id) else { return };
    let (a, said) = (&scene.attempt, scene.attempt.primitives[0]);
    let backerless = now.registries[k].configs.contains(&NO_BACKERS);
    match a.kind {
        2 if !backerless => {
            let r = &mut now.registries[k];
            r.backers.retain(|b| !a.backers.contains(b));
            r.backers.extend(&a.additions);
            (r.sn, r.latest, r.toad) = (a.numbers[0], said, a.numbers[1] as u32);
        }
        3 | 5 if backerless == (a.kind == 3) => {
            now.rows.push(Credential { head: said, sn: 0, ..scene.credential.clone() });
        }
        4 | 6 => now.rows.iter_mut().filter(|r| r.credential == scene.credential.credential).for_each(|r| (r.sn, r.head) = (1, said)),
        _ => {}
    }
}

/// Sometimes the state in BackerAt is the one that the registry started with.
fn earlier_head(rng: &mut Rng, world: &World, scene: &mut Scene) {
    let first: Option<&Registry> = world.registries.iter().find(|r| r.id == scene.registry.id);
    if let (Some(first), Some(Evidence::BackerAt(_)), true) = (first, scene.attempt.evidence.first(), rng.once_in(3)) {
        scene.attempt.evidence = vec![Evidence::BackerAt(Box::new(first.clone()))];
        scene.attempt.own = vec![Seal { kind: 4, i: first.id, s: first.sn, d: first.latest }];
        scene.attempt.signatures = make::signatures(rng, first.backers.len(), first.toad);
    }
}

/// Another order: any, but within a group the one that the list has.
fn reordered(rng: &mut Rng, entries: &[Entry]) -> Vec<usize> {
    let mut order: Vec<usize> = (0..entries.len()).collect();
    rng.shuffle(&mut order);
    let mut places: HashMap<&Group, Vec<usize>> = HashMap::new();
    for (place, k) in order.iter().enumerate() {
        if let Some(group) = &entries[*k].group {
            places.entry(group).or_default().push(place);
        }
    }
    for taken in places.values() {
        let mut members: Vec<usize> = taken.iter().map(|p| order[*p]).collect();
        members.sort_unstable();
        for (place, k) in taken.iter().zip(members) {
            order[*place] = k;
        }
    }
    order
}

type Report = [u8; REPORT];

fn run(start: &Block, entries: &[Entry], order: &[usize]) -> (Vec<Report>, Box<Block>) {
    let mut block = Box::new(start.clone());
    let mut reports = vec![[0; REPORT]; entries.len()];
    for k in order {
        reports[*k] = block.apply(&entries[*k].bytes).report;
    }
    (reports, block)
}

/// The rows by their keys, of a ledger that has no key twice.
fn rows(block: &Block) -> HashMap<(Prim, Prim), Credential> {
    block.table().rows.into_iter().map(|r| ((r.registry, r.credential), r)).collect()
}

/// How many attempts of a list were accepted, or what differs after two orders of it.
fn judged(rng: &mut Rng, start: &Block, entries: &[Entry], order: &[usize]) -> Result<usize, String> {
    let usual: Vec<usize> = (0..entries.len()).collect();
    let (first, one) = run(start, entries, &usual);
    let (second, other) = run(start, entries, order);
    if let Some(k) = (0..entries.len()).find(|k| first[*k] != second[*k]) {
        return Err(format!("place {k}: {} in one order, {} in the other", hex(&first[k]), hex(&second[k])));
    }
    let (a, b) = (one.table(), other.table());
    if (a.registry_count, &a.registries) != (b.registry_count, &b.registries) {
        return Err("the registries differ".to_owned());
    }
    if a.row_count != b.row_count || rows(&one) != rows(&other) {
        return Err("the rows differ".to_owned());
    }
    let mut keys: Vec<(Prim, Prim)> = rows(&one).into_keys().take(8).collect();
    keys.extend(entries.iter().filter_map(|e| if let Some(Group::Pair(r, c)) = &e.group { Some((*r, *c)) } else { None }));
    keys.push((rng.said(), rng.said()));
    match keys.iter().find(|(r, c)| one.look_up(r, c).report != other.look_up(r, c).report) {
        Some(_) => Err("a look-up differs".to_owned()),
        None => Ok(first.iter().filter(|report| report[0] == 0).count()),
    }
}

/// The new pairs of a list, each counted once.
fn new_pairs(world: &World, entries: &[Entry]) -> usize {
    let held: HashSet<(Prim, Prim)> = world.rows.iter().map(|r| (r.registry, r.credential)).collect();
    let named = entries.iter().filter(|e| e.issues).filter_map(|e| match &e.group {
        Some(Group::Pair(r, c)) if !held.contains(&(*r, *c)) => Some((*r, *c)),
        _ => None,
    });
    named.collect::<HashSet<_>>().len()
}

pub struct Found {
    pub text: String,
}

/// One list and one other order of it; one ledger in 16 breaks a reading rule. How many attempts there were, and how many were accepted.
pub fn one(rng: &mut Rng, backer: bool) -> Result<(usize, usize), Found> {
    let rows = *rng.pick(&[0, 3, 10, 30, 100, 216, 240]);
    let registries = rng.between(1, 16);
    let world = World::new(rng, registries, rows);
    let mut start = Block::zero();
    let mut table = world.table();
    if rng.once_in(16) {
        let which = rng.below(BREAKS);
        break_rule(rng, &mut table, which);
    }
    start.store(&table);
    let mut entries = list(rng, &world, backer);
    while world.rows.len() + new_pairs(&world, &entries) > 256 {
        entries.pop();
    }
    let order = reordered(rng, &entries);
    match judged(rng, &start, &entries, &order) {
        Ok(accepted) => Ok((entries.len(), accepted)),
        Err(what) => {
            let list: Vec<String> = entries.iter().map(|e| hex(&e.bytes)).collect();
            Err(Found { text: format!("{what}\n  order {order:?}\n  ledger {}\n  attempts {}", hex(&start.0), list.join(" ")) })
        }
    }
}

/// The layout of the block, as this harness takes it, is the library's: an image that is read has its states where they are looked for.
pub fn layout_holds() -> bool {
    let mut rng = Rng::new(1);
    let world = World::new(&mut rng, 16, 256);
    let (mut read, mut stored) = (Block::zero(), Block::zero());
    let said = read.read_image(&world.image());
    world.registries.iter().enumerate().for_each(|(k, r)| put_registry(stored.registry_mut(k), &Held::new(r.clone())));
    world.rows.iter().enumerate().for_each(|(k, r)| put_row(stored.row_mut(k), r));
    stored.set_counts(16, 256);
    said.number == 0 && read.table() == stored.table()
}
