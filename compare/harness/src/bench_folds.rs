//! Folds: ours over bytes, the Rust's over values that are decoded already, and the Rust's with a decoder before and an encoder behind.
use crate::keys::{Keys, Verdicts};
use crate::make::{Fold, Scene};
use crate::measure::{Table, calls, median, ns, round, times};
use crate::random::Rng;
use crate::samples::{FULL, SMALL, Size, TYPICAL, scene};
use crate::{decode, encode, fold, host};
use keri::{CredentialState, RegistryState, SignedTel, TelEvidence};
use std::hint::black_box;
use std::time::Instant;

const NAMES: [&str; 7] = ["", "vcp", "vrt", "iss", "rev", "bis", "brv"];

/// The inputs of a fold as bytes.
pub struct Bytes {
    pub fold: Fold,
    pub registry: Vec<u8>,
    pub credential: Vec<u8>,
    pub attempt: Vec<u8>,
}

impl Bytes {
    pub fn of(scene: &Scene) -> Self {
        Self { fold: scene.fold, registry: scene.registry.bytes(), credential: scene.credential.bytes(), attempt: scene.attempt.bytes() }
    }

    fn ours(&self, next: &mut [u8]) -> host::Said {
        match self.fold {
            Fold::RegistryIncept => host::registry_incept(&self.attempt, next),
            Fold::RegistryIngest => host::registry_ingest(&self.registry, &self.attempt, next),
            Fold::CredentialIncept => host::credential_incept(&self.registry, &self.attempt, next),
            Fold::CredentialIngest => host::credential_ingest(&self.registry, &self.credential, &self.attempt, next),
        }
    }

    /// The same work by the Rust: bytes are read, the fold is called, the next state is written to a buffer. The number is answered.
    fn decoded(&self, next: &mut Vec<u8>) -> u8 {
        let keys = &Verdicts;
        next.clear();
        let Some(attempt) = decode::attempt(&self.attempt, keys, 0) else { return 1 };
        if self.fold == Fold::RegistryIncept {
            return match fold::registry_incept(&attempt, keys) {
                Ok(state) => written(next, |out| encode::registry_into(out, &state, keys)),
                Err(answer) => answer.number,
            };
        }
        let Some(mut held) = decode::registry(&self.registry, keys) else { return 1 };
        let result = match self.fold {
            Fold::RegistryIngest => {
                let result = fold::registry_ingest(&mut held, &attempt, keys);
                return result.map_or_else(|a| a.number, |()| written(next, |out| encode::registry_into(out, &held, keys)));
            }
            Fold::CredentialIncept => fold::credential_incept(&held, &attempt, keys),
            _ => {
                let Some(mut state) = decode::credential(&self.credential, keys) else { return 1 };
                fold::credential_ingest(&held, &mut state, &attempt, keys).map(|()| state)
            }
        };
        result.map_or_else(|answer| answer.number, |state| written(next, |out| encode::credential_into(out, &state)))
    }
}

fn written(next: &mut Vec<u8>, put: impl FnOnce(&mut Vec<u8>)) -> u8 {
    put(next);
    0
}

/// Nanoseconds of a call: ours, the Rust's fold alone, the Rust's fold with its decoder.
pub struct Times {
    pub ours: f64,
    pub alone: f64,
    pub decoded: f64,
}

/// The states that a fold of the Rust gets.
struct Held {
    fold: Fold,
    registry: RegistryState,
    credential: CredentialState,
}

impl Held {
    /// One round of the Rust's fold over values. A fold that changes its state gets a copy each time, made before the clock starts.
    fn alone(&self, n: usize, signed: &SignedTel<'_>, evidence: &TelEvidence<'_>) -> f64 {
        match self.fold {
            Fold::RegistryIncept => round(n, &mut Vec::new(), |_| RegistryState::incept_with_evidence(signed, evidence)),
            Fold::CredentialIncept => round(n, &mut Vec::new(), |_| CredentialState::incept(&self.registry, signed, evidence)),
            Fold::RegistryIngest => {
                let mut states = vec![self.registry.clone(); n];
                round(n, &mut Vec::new(), |k| states[k].ingest_mut(signed, evidence))
            }
            Fold::CredentialIngest => {
                let mut states = vec![self.credential.clone(); n];
                round(n, &mut Vec::new(), |k| states[k].ingest_mut(&self.registry, signed, evidence))
            }
        }
    }
}

pub fn measure(bytes: &Bytes, rounds: usize) -> Times {
    let keys = &Verdicts;
    let attempt = decode::attempt(&bytes.attempt, keys, 0).expect("a sound attempt");
    let held = Held {
        fold: bytes.fold,
        registry: decode::registry(&bytes.registry, keys).expect("a sound state"),
        credential: decode::credential(&bytes.credential, keys).expect("a sound state"),
    };
    let (mut buffer, mut next) = ([0; 700], Vec::with_capacity(700));
    let (mut said, mut numbers) = (Vec::new(), Vec::new());
    assert_eq!((bytes.ours(&mut buffer).number, bytes.decoded(&mut next)), (0, 0), "both accept");
    assert_eq!(&buffer[..next.len()], &next[..], "both write the same");
    let n = calls(|| bytes.ours(&mut buffer)).min(calls(|| bytes.decoded(&mut next)));
    let (mut a, mut b, mut c) = (vec![], vec![], vec![]);
    fold::handed(&attempt, keys.signatures(&attempt, None), |signed, evidence| {
        for _ in 0..rounds {
            a.push(round(n, &mut said, |_| bytes.ours(&mut buffer)));
            b.push(held.alone(n, signed, evidence));
            c.push(round(n, &mut numbers, |_| bytes.decoded(&mut next)));
        }
    });
    Times { ours: median(a), alone: median(b), decoded: median(c) }
}

fn put(table: &mut Table, name: String, t: &Times) {
    let cells = [ns(t.ours), ns(t.alone), times(t.alone, t.ours), ns(t.decoded), times(t.decoded, t.ours)];
    table.row(std::iter::once(name).chain(cells).collect());
}

/// Calls ours alone for some seconds, for a profiler: a kind and a size, as "vrt typical". Answers whether there is such a row.
pub fn profile(rng: &mut Rng, name: &str, seconds: u64) -> bool {
    let sizes = [("small", SMALL), ("typical", TYPICAL), ("full", FULL)];
    let rows = sizes.into_iter().flat_map(|(word, size)| (1..=6).map(move |kind| (format!("{} {word}", NAMES[kind as usize]), kind, size)));
    for (_, kind, size) in rows.filter(|row| row.0 == name) {
        let (bytes, mut next, started) = (Bytes::of(&scene(rng, kind, size, false)), [0; 700], Instant::now());
        while started.elapsed().as_secs() < seconds {
            for _ in 0..1000 {
                black_box(bytes.ours(&mut next));
            }
        }
        return true;
    }
    false
}

const HEAD: [&str; 6] = ["fold", "ours, ns", "Rust, fold alone, ns", "ratio", "Rust with decoder, ns", "ratio"];

pub fn folds(rng: &mut Rng, rounds: usize) {
    println!("### Folds\n");
    let mut table = Table::new(&HEAD);
    for (word, size) in [("small", SMALL), ("typical", TYPICAL), ("full", FULL)] {
        for kind in 1..=6 {
            let bytes = Bytes::of(&scene(rng, kind, size, false));
            put(&mut table, format!("{} {word}", NAMES[kind as usize]), &measure(&bytes, rounds));
        }
        for kind in 5..=6 {
            let bytes = Bytes::of(&scene(rng, kind, size, true));
            put(&mut table, format!("{} {word}, earlier state", NAMES[kind as usize]), &measure(&bytes, rounds));
        }
    }
    table.print();
}

/// Decoding alone: an attempt is read to its end, and nothing is done with it.
pub fn decoding(rng: &mut Rng, rounds: usize) {
    println!("### Decoding alone\n");
    let mut table = Table::new(&["attempt", "bytes", "ours, ns", "Rust's decoder, ns", "ratio"]);
    for (word, size) in [("small", SMALL), ("typical", TYPICAL), ("full", FULL)] {
        for kind in 1..=6 {
            let bytes = Bytes::of(&scene(rng, kind, size, false));
            assert_eq!(host::decode(&bytes.attempt).number, 0);
            assert!(decode::attempt(&bytes.attempt, &Verdicts, 0).is_some());
            let (mut a, mut b, mut said, mut read) = (vec![], vec![], Vec::new(), Vec::new());
            let n = calls(|| host::decode(&bytes.attempt));
            for _ in 0..rounds {
                a.push(round(n, &mut said, |_| host::decode(&bytes.attempt)));
                b.push(round(n, &mut read, |_| decode::attempt(&bytes.attempt, &Verdicts, 0).is_none()));
            }
            let (ours, rust) = (median(a), median(b));
            let name = format!("{} {word}", NAMES[kind as usize]);
            table.row(vec![name, bytes.attempt.len().to_string(), ns(ours), ns(rust), times(rust, ours)]);
        }
    }
    table.print();
}

/// How the cost of a fold grows with backers, and with signatures.
pub fn growth(rng: &mut Rng, rounds: usize) {
    println!("### How the cost grows with backers and signatures\n");
    let mut table = Table::new(&HEAD);
    for n in [1, 2, 4, 8, 16] {
        for kind in [1, 2, 5] {
            let size = Size { backers: n, signatures: n, exchanged: n };
            let bytes = Bytes::of(&scene(rng, kind, size, false));
            let what = if kind == 2 { format!("{n} cut, {n} added") } else { format!("{n} backers, {n} signatures") };
            put(&mut table, format!("{}, {what}", NAMES[kind as usize]), &measure(&bytes, rounds));
        }
    }
    for n in [16, 32, 48, 64] {
        let bytes = Bytes::of(&scene(rng, 5, Size { backers: 16, signatures: n, exchanged: 0 }, false));
        put(&mut table, format!("bis, 16 backers, {n} signatures"), &measure(&bytes, rounds));
    }
    table.print();
}
