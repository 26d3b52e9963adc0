//! Batches of the ledger's calls.
use crate::check::Checker;
use crate::damage::{DAMAGES, damage};
use crate::host::{Block, LEDGER};
use crate::keys::Prim;
use crate::memory::Table;
use crate::plain::Ledger;
use crate::random::Rng;
use crate::run::BATCH;
use crate::scene::{Credential, Registry, image};
use crate::world::{BREAKS, World, break_rule, plain_of};

/// A block that has bytes of its own everywhere, so that whatever is written beside a field or behind a count is seen.
fn block(rng: &mut Rng, table: &Table) -> Box<Block> {
    let mut block = Block::zero();
    for chunk in block.0.chunks_mut(8) {
        chunk.copy_from_slice(&rng.word().to_be_bytes());
    }
    block.store(table);
    block
}

/// A key for a look-up: of a row, near to one, or no key at all.
fn key(rng: &mut Rng, world: &World) -> (Vec<u8>, Vec<u8>) {
    let row = match world.rows.is_empty() {
        true => Credential { registry: rng.said(), credential: rng.said(), sn: 0, head: rng.said() },
        false => rng.pick(&world.rows).clone(),
    };
    let (mut registry, mut credential): (Prim, Prim) = (row.registry, row.credential);
    match rng.below(8) {
        0 => registry = rng.near(&registry),
        1 => credential = rng.near(&credential),
        2 => registry[0] = *rng.pick(b"BDAJ"),
        3 => credential[0] = *rng.pick(b"BDAJ"),
        _ => {}
    }
    let (mut registry, mut credential) = (registry.to_vec(), credential.to_vec());
    match rng.below(16) {
        0 => registry.truncate(rng.below(33)),
        1 => credential.truncate(rng.below(33)),
        2 => registry.push(0),
        3 => credential.push(0),
        _ => {}
    }
    (registry, credential)
}

/// A buffer for an image: too short, just long enough, longer.
fn room(rng: &mut Rng, size: usize) -> usize {
    match rng.below(6) {
        0 => rng.below(size + 1),
        1 => size.saturating_sub(1),
        2 => size,
        _ => size + rng.below(200),
    }
}

/// One call each on a ledger of any size; one in four breaks a reading rule.
pub fn ledgers(rng: &mut Rng, checker: &mut Checker) {
    for _ in 0..BATCH / 32 {
        let world = World::any(rng);
        let sound = block(rng, &world.table());
        let ledger = plain_of(&world.table(), &checker.keys).expect("a sound ledger");
        for k in 0..32 {
            let mut held = sound.clone();
            // Repeated keys are looked for in both ways.
            let mut plain = Some(Ledger { hashed: k % 2 == 0, ..ledger.clone() });
            if k == 31 {
                // Any pattern of bits, behind counts that are mostly small.
                held = random_block(rng);
                let counts = (*rng.pick(&[0, 0, 1, 16, u64::MAX]), *rng.pick(&[0, 0, 1, 256, u64::MAX]));
                held.set_counts(counts.0, counts.1);
                plain = plain_of(&held.table(), &checker.keys);
            } else if k % 4 == 3 {
                let mut table = world.table();
                let which = rng.below(BREAKS);
                break_rule(rng, &mut table, which);
                held.store(&table);
                plain = plain_of(&held.table(), &checker.keys);
            }
            match rng.below(8) {
                0 | 1 => {
                    let (registry, credential) = key(rng, &world);
                    checker.look_up(&held, plain.as_ref(), &registry, &credential);
                }
                2 => {
                    let n = rng.word();
                    checker.write_image(&held, plain.as_ref(), |size| room(&mut Rng::new(n), size));
                }
                _ => {
                    let mut attempt = world.attempt(rng, true).bytes();
                    if rng.once_in(12) {
                        let which = rng.below(DAMAGES);
                        damage(rng, &mut attempt, which);
                    }
                    checker.apply(&mut held, plain.as_mut(), &attempt);
                }
            }
        }
    }
}

/// What a sound state is read from, of the plain ledger and the block together.
fn world_of(block: &Block) -> World {
    let table = block.table();
    World { registries: table.registries.into_iter().map(|h| h.state).collect(), rows: table.rows }
}

/// Lists of attempts, each of them made for what the ones before have left.
pub fn sequences(rng: &mut Rng, checker: &mut Checker) {
    for _ in 0..BATCH / 64 {
        let mut world = match rng.below(3) {
            0 => World::default(),
            1 => World::new(rng, 15, 250),
            _ => World::any(rng),
        };
        let mut held = block(rng, &world.table());
        let mut plain = plain_of(&world.table(), &checker.keys).expect("a sound ledger");
        if world.registries.is_empty() {
            checker.empty(&mut held);
        }
        let mut earlier: Vec<Vec<u8>> = vec![];
        for _ in 0..62 {
            let again = rng.once_in(10) && !earlier.is_empty();
            let attempt = if again { rng.pick(&earlier).clone() } else { world.attempt(rng, true).bytes() };
            let answer = checker.apply(&mut held, Some(&mut plain), &attempt);
            earlier.push(attempt);
            if answer.number == 0 {
                world = world_of(&held);
            }
        }
        let (registry, credential) = key(rng, &world);
        checker.look_up(&held, Some(&plain), &registry, &credential);
        checker.write_image(&held, Some(&plain), |size| size);
    }
}

/// Images, sound ones and damaged, read into blocks of any content; those that are read are written again.
pub fn images(rng: &mut Rng, checker: &mut Checker) {
    for _ in 0..BATCH / 16 {
        let world = World::any(rng);
        let other = World::any(rng);
        let start = block(rng, &other.table());
        let wild = random_block(rng);
        for k in 0..16 {
            let mut held = if k % 8 < 4 { start.clone() } else { wild.clone() };
            let bytes = image_case(rng, &world, k % 4);
            checker.read_image(&mut held, &bytes);
            if k % 4 == 0 {
                let plain: Option<Ledger> = plain_of(&held.table(), &checker.keys);
                checker.write_image(&held, plain.as_ref(), |size| size);
            }
        }
    }
}

/// Any pattern of bits.
fn random_block(rng: &mut Rng) -> Box<Block> {
    let mut block = Block::zero();
    for at in (0..LEDGER).step_by(8) {
        block.0[at..at + 8].copy_from_slice(&rng.word().to_be_bytes());
    }
    block
}

fn image_case(rng: &mut Rng, world: &World, which: usize) -> Vec<u8> {
    let mut table = world.table();
    match which {
        0 => {}
        1 => {
            let rule = rng.below(BREAKS - 1);
            break_rule(rng, &mut table, rule);
        }
        2 => {
            // One registry or one row more than there may be.
            let registries: Vec<Registry> = World::new(rng, 17, 0).registries;
            let mut rows = world.rows.clone();
            while !rows.is_empty() && rows.len() < 257 {
                let id = rng.pick(&world.registries).id;
                rows.push(crate::make::credential(rng, &id, 0));
            }
            return if rng.once_in(2) { image(&registries, &[]) } else { image(&world.registries, &rows) };
        }
        _ => {
            let mut bytes = world.image();
            let which = rng.below(DAMAGES);
            damage(rng, &mut bytes, which);
            return bytes;
        }
    }
    let registries: Vec<Registry> = table.registries.iter().map(|h| h.state.clone()).collect();
    image(&registries, &table.rows)
}
