//! The cases, in batches. A batch is made from the seed and its number alone, so that a run does not depend on how many threads it has.
use crate::check::{Checker, FoldCase};
use crate::damage::{DAMAGES, damage};
use crate::fault::{faults, rules};
use crate::make::{self, Scene};
use crate::random::Rng;
use crate::run_ledger::{images, ledgers, sequences};
use crate::scene::Status;
use std::collections::HashMap;

/// Cases of a batch, at least.
pub const BATCH: usize = 1024;

/// How often each ordered pair of faults was put into a sound attempt of a kind.
pub type Pairs = HashMap<(u8, u16, u16), u32>;

pub fn batch(seed: u64, number: u64, checker: &mut Checker, pairs: &mut Pairs) {
    let mut rng = Rng::new(seed.wrapping_mul(0x2545_f491_4f6c_dd1d) ^ number.wrapping_mul(0x9e6c_63d0_876a_3f6b));
    let rng = &mut rng;
    match number % 16 {
        12 => statuses(rng, checker),
        13 => ledgers(rng, checker),
        14 => sequences(rng, checker),
        15 => images(rng, checker),
        n => folds(rng, (n % 6) as u8 + 1, number / 16 * 2 + n / 6, checker, pairs),
    }
    if number % 64 == 12 {
        thresholds(rng, checker);
    }
}

fn case(rng: &mut Rng, scene: &Scene) -> FoldCase {
    let state = if scene.fold as usize <= 1 { 658 } else { 115 };
    let room = match rng.below(12) {
        0 => rng.below(state + 1),
        1 => state - 1,
        2 => state,
        _ => 700,
    };
    FoldCase {
        fold: scene.fold,
        registry: scene.registry.bytes(),
        credential: scene.credential.bytes(),
        attempt: scene.attempt.bytes(),
        room,
    }
}

/// Damages one of the inputs that the fold takes.
fn damaged(rng: &mut Rng, case: &mut FoldCase) {
    let bytes = match rng.below(6) {
        0 => &mut case.registry,
        1 => &mut case.credential,
        _ => &mut case.attempt,
    };
    for _ in 0..rng.between(1, 2) {
        let which = rng.below(DAMAGES);
        damage(rng, bytes, which);
    }
}

/// Calls of folds with attempts of one kind: of eight, one is sound, one has one fault, one has three, one is damaged, three have two
/// faults against other rules than a layout, and one has any two. All these are taken one after another, `turn` by `turn`.
fn folds(rng: &mut Rng, kind: u8, turn: u64, checker: &mut Checker, pairs: &mut Pairs) {
    let all = faults(kind);
    let (n, m) = (all.len(), rules(kind));
    let first = turn as usize * (BATCH / 8);
    let mut base = make::scene(rng, kind);
    for k in 0..BATCH {
        if k % 16 == 0 {
            base = make::scene(rng, kind);
        }
        let mut scene = base.clone();
        let turn = first + k / 8;
        let chosen: Vec<usize> = match k % 8 {
            0 | 3 => vec![],
            1 => vec![turn % n],
            2 => (0..3).map(|_| rng.below(m)).collect(),
            7 => vec![turn / n % n, turn % n],
            part => {
                let turn = 3 * turn + part - 4;
                vec![turn / m % m, turn % m]
            }
        };
        if k % 8 == 0 {
            scene = make::scene(rng, kind);
        }
        chosen.iter().for_each(|f| (all[*f].apply)(&mut scene, rng));
        if let [i, j] = chosen[..] {
            *pairs.entry((kind, i as u16, j as u16)).or_default() += 1;
        }
        let mut case = case(rng, &scene);
        if k % 8 == 3 {
            damaged(rng, &mut case);
        }
        checker.fold(&case);
        if k % 8 < 4 {
            checker.decode(&case.attempt);
        }
    }
}

/// Faults of the input of `status`, one for each of its refusals and each way to meet it.
const STATUS_FAULTS: usize = 13;

fn status_fault(rng: &mut Rng, s: &mut Status, which: usize) {
    match which {
        0 => s.registries.clear(),
        1 => s.credentials.clear(),
        2 => s.issuers.clear(),
        3 => s.reference = *rng.pick(&[0, 2]),
        4 => s.registry_said = rng.near(&s.registry_said),
        5 => s.issuer = rng.near(&s.issuer),
        6 => s.issuers.iter_mut().for_each(|p| *p = rng.near(p)),
        7 => s.credentials.iter_mut().for_each(|c| c.registry = rng.near(&c.registry)),
        8 => s.credentials.iter_mut().for_each(|c| c.credential = rng.near(&c.credential)),
        9 => s.credentials.iter_mut().for_each(|c| c.sn = rng.off(c.sn)),
        10 => s.reference = *rng.pick(&[3, 255]),
        11 => s.issuers.extend(s.issuers.clone()),
        _ => s.said = rng.near(&s.said),
    }
}

fn statuses(rng: &mut Rng, checker: &mut Checker) {
    for k in 0..BATCH {
        let mut status = make::status(rng);
        match k % 8 {
            0 => {}
            1 => status_fault(rng, &mut status, k / 8 % STATUS_FAULTS),
            2 => (0..3).for_each(|_| {
                let which = rng.below(STATUS_FAULTS);
                status_fault(rng, &mut status, which);
            }),
            3 => {}
            _ => {
                status_fault(rng, &mut status, k / STATUS_FAULTS % STATUS_FAULTS);
                status_fault(rng, &mut status, k % STATUS_FAULTS);
            }
        }
        let mut bytes = status.bytes();
        if k % 8 == 3 {
            let which = rng.below(DAMAGES);
            damage(rng, &mut bytes, which);
        }
        checker.status(&bytes);
    }
}

/// Toads and numbers of backers: small ones all, and the ends of 32 and 64 bits.
fn thresholds(rng: &mut Rng, checker: &mut Checker) {
    let ends = [0, 1, 1 << 31, (1 << 32) - 1, 1 << 32, (1 << 33) - 1, 6_442_450_941, 1 << 63, u64::MAX];
    for toad in 0..20 {
        for backers in 0..20 {
            checker.thresholds(toad, backers);
        }
    }
    for _ in 0..BATCH / 4 {
        let around = |rng: &mut Rng, n: u64| n.wrapping_add(rng.below(9) as u64).wrapping_sub(4);
        let end = *rng.pick(&ends);
        let backers = match rng.below(3) {
            0 => rng.word() >> rng.below(64),
            1 => 6_442_450_941_u64.wrapping_add(rng.below(4000) as u64).wrapping_sub(2000),
            _ => around(rng, end),
        };
        let toad = if rng.once_in(2) { around(rng, end) as u32 } else { backers as u32 };
        checker.thresholds(toad, backers as usize);
    }
}
