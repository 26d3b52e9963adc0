//! The ledger's calls: ours on a block that is lent, and the plain Rust ledger, which makes the same checks at every call. It looks for
//! repeated keys by comparing rows with each other, or, in the second column, with a hash set.
use crate::host::Block;
use crate::keys::Verdicts;
use crate::measure::{Table, clock, median, ns, single, times};
use crate::plain::{Changed, Ledger};
use crate::random::Rng;
use crate::samples::{FULL, SMALL, Size, TYPICAL, attempt, registry};
use crate::scene::{Credential, Registry, image};
use std::hint::black_box;
use std::time::Instant;

const NAMES: [&str; 7] = ["", "vcp", "vrt", "iss", "rev", "bis", "brv"];

/// A ledger with half of its registries without backers, and the rest with as many as `size` has.
struct Store {
    registries: Vec<Registry>,
    rows: Vec<Credential>,
    block: Box<Block>,
    loops: Ledger,
    hashed: Ledger,
    size: Size,
}

fn store(rng: &mut Rng, registries: usize, rows: usize, size: Size) -> Store {
    let registries: Vec<Registry> = (0..registries).map(|k| registry(rng, if k % 2 == 0 { size.backers } else { 0 })).collect();
    let row = |rng: &mut Rng, k: usize| Credential {
        registry: registries[k % registries.len()].id,
        credential: rng.said(),
        sn: 0,
        head: rng.said(),
    };
    let rows: Vec<Credential> = (0..rows).map(|k| row(rng, k)).collect();
    let bytes = image(&registries, &rows);
    let mut block = Block::zero();
    assert_eq!(block.read_image(&bytes).number, 0);
    let [loops, hashed] = [false, true].map(|h| Ledger::read(&bytes, &Verdicts, h).expect("a sound image"));
    Store { registries, rows, block, loops, hashed, size }
}

impl Store {
    /// An attempt of this kind for the last row that fits it, or a new one.
    fn attempt(&self, rng: &mut Rng, kind: u8) -> Option<Vec<u8>> {
        let simple = matches!(kind, 3 | 4);
        if kind == 1 {
            let new = registry(rng, self.size.backers);
            let nobody = Credential { registry: new.id, credential: new.id, sn: 0, head: new.id };
            return Some(attempt(rng, 1, &new, &nobody, self.size, false).bytes());
        }
        let held = self.registries.iter().rev().find(|r| r.backers.is_empty() == simple)?;
        let new = Credential { registry: held.id, credential: rng.said(), sn: 0, head: rng.said() };
        let row = match kind {
            4 | 6 => self.rows.iter().rev().find(|r| r.registry == held.id)?.clone(),
            _ => new,
        };
        Some(attempt(rng, kind, held, &row, self.size, false).bytes())
    }
}

/// The plain ledger's call, timed; what it changed is put back afterwards.
fn plain(ledger: &mut Ledger, before: &Ledger, bytes: &[u8], clock: f64) -> f64 {
    let mut changed = Changed::Nothing;
    let time = single(clock, || changed = ledger.apply(bytes, &Verdicts, 0).1);
    match changed {
        Changed::Registry(k) if k < before.registries.len() => ledger.registries[k] = before.registries[k].clone(),
        Changed::Row(k) if k < before.rows.len() => ledger.rows[k] = before.rows[k].clone(),
        _ => {}
    }
    ledger.registries.truncate(before.registries.len());
    ledger.rows.truncate(before.rows.len());
    time
}

/// The same of ours.
fn ours(block: &mut Block, before: &Block, changed: Changed, bytes: &[u8], clock: f64) -> f64 {
    let time = single(clock, || block.apply(bytes));
    match changed {
        Changed::Nothing => {}
        Changed::Registry(k) => block.registry_mut(k).copy_from_slice(before.registry(k)),
        Changed::Row(k) => block.row_mut(k).copy_from_slice(before.row(k)),
    }
    block.set_counts(before.registry_count(), before.row_count());
    time
}

/// Ours, with loops, with a hash set; and the number that all three answer.
fn applied(store: &Store, bytes: &[u8], rounds: usize) -> ([f64; 3], u8) {
    let clock = clock();
    let (mut block, mut loops, mut hashed) = (store.block.clone(), store.loops.clone(), store.hashed.clone());
    let number = block.clone().apply(bytes).number;
    let (answer, changed) = loops.clone().apply(bytes, &Verdicts, 0);
    assert_eq!(answer.number, number, "both answer the same");
    let mut all = [vec![], vec![], vec![]];
    for _ in 0..rounds {
        all[0].push(ours(&mut block, &store.block, changed, bytes, clock));
        all[1].push(plain(&mut loops, &store.loops, bytes, clock));
        all[2].push(plain(&mut hashed, &store.hashed, bytes, clock));
    }
    assert!(block == store.block && loops == store.loops && hashed == store.hashed, "all are as before");
    (all.map(median), number)
}

const HEAD: [&str; 7] = ["call", "answer", "ours, ns", "Rust, ns", "ratio", "Rust with a hash set, ns", "ratio"];

fn put(table: &mut Table, name: String, answer: String, [ours, loops, hashed]: [f64; 3]) {
    table.row(vec![name, answer, ns(ours), ns(loops), times(loops, ours), ns(hashed), times(hashed, ours)]);
}

pub fn apply(rng: &mut Rng, rounds: usize) {
    println!("### `apply`\n");
    let mut table = Table::new(&HEAD);
    for (word, size) in [("small", SMALL), ("typical", TYPICAL), ("full", FULL)] {
        for (ledger, registries, rows) in [("empty", 0, 0), ("half", 8, 128), ("full", 16, 256)] {
            let store = store(rng, registries, rows, size);
            for kind in 1..=6 {
                let Some(bytes) = store.attempt(rng, kind) else { continue };
                let (times, number) = applied(&store, &bytes, rounds);
                put(&mut table, format!("{} {word}, ledger {ledger}", NAMES[kind as usize]), number.to_string(), times);
            }
        }
    }
    table.print();
}

/// How the cost of a call grows with registries and with rows: a typical rev.
pub fn growth(rng: &mut Rng, rounds: usize) {
    println!("### How the cost of `apply` grows with registries and rows\n");
    let mut table = Table::new(&HEAD);
    let sizes = [2, 4, 8, 16].map(|r| (r, 64)).into_iter().chain([2, 16, 32, 64, 128, 192, 256].map(|r| (16, r)));
    for (registries, rows) in sizes {
        let store = store(rng, registries, rows, TYPICAL);
        let Some(bytes) = store.attempt(rng, 4) else { continue };
        let (times, number) = applied(&store, &bytes, rounds);
        put(&mut table, format!("rev, {registries} registries, {rows} rows"), number.to_string(), times);
    }
    table.print();
}

/// Calls ours alone for some seconds, for a profiler, on a full ledger: "apply", "look up", "write" or "read".
pub fn profile(rng: &mut Rng, name: &str, seconds: u64) -> bool {
    let store = store(rng, 16, 256, TYPICAL);
    let (bytes, mut block) = (image(&store.registries, &store.rows), store.block.clone());
    let (key, mut out) = (store.rows.last().expect("rows"), vec![0; bytes.len()]);
    // Refused with 29, after all checks.
    let attempt = store.attempt(rng, 3).expect("an iss");
    let started = Instant::now();
    while started.elapsed().as_secs() < seconds {
        let said = match name {
            "apply" => block.apply(&attempt),
            "look up" => block.look_up(&key.registry, &key.credential),
            "write" => block.write_image(&mut out),
            "read" => block.read_image(&bytes),
            _ => return false,
        };
        black_box(said);
    }
    true
}

/// Look-ups, and images read and written; images in GB/s too.
pub fn images(rng: &mut Rng, rounds: usize) {
    println!("### Look-up and image\n");
    let head = ["call", "image, bytes", "ours, ns", "ours, GB/s", "Rust, ns", "ratio", "Rust with a hash set, ns", "Rust, GB/s", "ratio"];
    let mut table = Table::new(&head);
    for (word, registries, rows) in [("half", 8, 128), ("full", 16, 256)] {
        let store = store(rng, registries, rows, FULL);
        let bytes = image(&store.registries, &store.rows);
        let clock = clock();
        let key = store.rows.last().expect("rows");
        let mut out = vec![0; bytes.len()];
        let mut block = store.block.clone();
        let mut all: [Vec<f64>; 9] = Default::default();
        for _ in 0..rounds {
            all[0].push(single(clock, || store.block.look_up(&key.registry, &key.credential)));
            all[1].push(single(clock, || store.loops.look_up(&key.registry, &key.credential, &Verdicts)));
            all[2].push(single(clock, || store.hashed.look_up(&key.registry, &key.credential, &Verdicts)));
            all[3].push(single(clock, || store.block.write_image(&mut out)));
            all[4].push(single(clock, || store.loops.image(&Verdicts)));
            all[5].push(single(clock, || store.hashed.image(&Verdicts)));
            all[6].push(single(clock, || block.read_image(&bytes)));
            all[7].push(single(clock, || Ledger::read(&bytes, &Verdicts, false)));
            all[8].push(single(clock, || Ledger::read(&bytes, &Verdicts, true)));
        }
        assert_eq!(out, bytes, "the image is the one that was read");
        let t = all.map(median);
        for (k, call) in ["look up the last row", "write the image", "read the image"].into_iter().enumerate() {
            let [ours, loops, hashed] = [t[3 * k], t[3 * k + 1], t[3 * k + 2]];
            let speed = |t: f64| if k == 0 { String::new() } else { format!("{:.2}", bytes.len() as f64 / t) };
            let name = format!("{call}, ledger {word}");
            let first = vec![name, bytes.len().to_string(), ns(ours), speed(ours), ns(loops), times(loops, ours)];
            table.row(first.into_iter().chain([ns(hashed), speed(hashed), times(hashed, ours)]).collect());
        }
    }
    table.print();
}
