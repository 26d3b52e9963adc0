//! Whole ledgers, sound ones and ones that break a reading rule, and attempts that are made for them.
use crate::fault::faults;
use crate::keys::{Keys, Prim};
use crate::make::{self, NO_BACKERS, Scene, fold_of};
use crate::memory::{Held, Table};
use crate::plain::Ledger;
use crate::random::Rng;
use crate::scene::{Attempt, Credential, Registry};
use crate::{decode, plain};

/// The states of a sound ledger.
#[derive(Clone, Debug, Default)]
pub struct World {
    pub registries: Vec<Registry>,
    pub rows: Vec<Credential>,
}

impl World {
    pub fn new(rng: &mut Rng, registries: usize, rows: usize) -> Self {
        let mut world = Self::default();
        for _ in 0..registries {
            let registry = world.another_registry(rng);
            world.registries.push(registry);
        }
        for _ in 0..if registries == 0 { 0 } else { rows } {
            let row = world.another_row(rng);
            world.rows.push(row);
        }
        world
    }

    fn another_registry(&self, rng: &mut Rng) -> Registry {
        let backerless = rng.once_in(2);
        let mut registry = make::registry(rng, backerless);
        // Ids that differ in as little as the letter.
        if let Some(other) = self.registries.last().filter(|_| rng.once_in(6)) {
            let near = rng.near(&other.id);
            if self.registries.iter().all(|r| r.id != near) {
                registry.id = near;
            }
        }
        if rng.once_in(30) {
            registry.sn = u128::MAX;
        }
        registry
    }

    fn another_row(&self, rng: &mut Rng) -> Credential {
        let id = rng.pick(&self.registries).id;
        let sn = rng.below(2) as u128;
        let mut row = make::credential(rng, &id, sn);
        if let Some(other) = self.rows.last().filter(|_| rng.once_in(4)) {
            // One credential under two registries is two keys; and keys may differ in as little as the letter.
            let credential = if other.registry != id { other.credential } else { rng.near(&other.credential) };
            if self.rows.iter().all(|r| (r.registry, r.credential) != (id, credential)) {
                row.credential = credential;
            }
        }
        row
    }

    /// Any sizes: empty, small, and at both limits.
    pub fn any(rng: &mut Rng) -> Self {
        let registries = *rng.pick(&[0, 1, 1, 2, 3, 4, 8, 15, 16, 16]);
        let rows = *rng.pick(&[0, 1, 2, 3, 5, 8, 16, 30, 30, 64, 128, 255, 256]);
        Self::new(rng, registries, rows)
    }

    pub fn table(&self) -> Table {
        Table {
            registry_count: self.registries.len() as u64,
            registries: self.registries.iter().cloned().map(Held::new).collect(),
            row_count: self.rows.len() as u64,
            rows: self.rows.clone(),
        }
    }

    pub fn image(&self) -> Vec<u8> {
        crate::scene::image(&self.registries, &self.rows)
    }

    /// An attempt for this ledger: it names a registry and a row that are held, or others, and mostly fits them.
    pub fn scene(&self, rng: &mut Rng, backer: bool, inceptions: bool) -> Scene {
        let held = (!self.registries.is_empty() && !rng.once_in(12)).then(|| rng.pick(&self.registries).clone());
        let registry = held.unwrap_or_else(|| {
            let backerless = rng.once_in(2);
            make::registry(rng, backerless)
        });
        let backerless = registry.configs.contains(&NO_BACKERS);
        let kind = match rng.below(if inceptions { 10 } else { 9 }) {
            0 => rng.between(2, 6) as u8,
            1..=4 => {
                if backerless {
                    3
                } else {
                    5
                }
            }
            5..=7 => {
                if backerless {
                    4
                } else {
                    6
                }
            }
            8 => 2,
            _ => 1,
        };
        let rows: Vec<&Credential> = self.rows.iter().filter(|r| r.registry == registry.id).collect();
        let known = if matches!(kind, 4 | 6) { !rng.once_in(8) } else { rng.once_in(6) };
        let credential = match known && !rows.is_empty() {
            true => (*rng.pick(&rows)).clone(),
            false => make::credential(rng, &registry.id, 0),
        };
        let attempt = make::attempt(rng, kind, &registry, &credential, backer);
        Scene { fold: fold_of(kind), registry, credential, attempt }
    }

    /// The same with up to two faults in it.
    pub fn attempt(&self, rng: &mut Rng, inceptions: bool) -> Attempt {
        let mut scene = self.scene(rng, true, inceptions);
        for _ in 0..*rng.pick(&[0, 0, 0, 1, 1, 2]) {
            let all = faults(scene.attempt.kind.clamp(1, 6));
            (rng.pick(&all).apply)(&mut scene, rng);
        }
        if rng.once_in(20)
            && let Some(r) = (!self.registries.is_empty()).then(|| rng.pick(&self.registries))
            && scene.attempt.kind == 1
        {
            scene.attempt.primitives[0] = r.id;
        }
        scene.attempt
    }
}

/// The plain ledger of what stands in a block, or nothing where a count or a state breaks its layout.
pub fn plain_of<K: Keys>(table: &Table, keys: &K) -> Option<Ledger> {
    if table.registry_count > plain::MOST_REGISTRIES as u64 || table.row_count > plain::MOST_ROWS as u64 {
        return None;
    }
    let registry = |h: &Held| {
        if h.configs > 8 || h.backers > 16 { None } else { decode::registry(&h.state.bytes(), keys) }
    };
    let registries = table.registries.iter().map(registry).collect::<Option<Vec<_>>>()?;
    let rows = table.rows.iter().map(|r| decode::credential(&r.bytes(), keys)).collect::<Option<Vec<_>>>()?;
    Some(Ledger { registries, rows, hashed: true })
}

pub const BREAKS: usize = 16;

fn letter(rng: &mut Rng, p: &mut Prim) {
    p[0] = *rng.pick(&[0, b'A', b'B', b'C', b'D', b'J', 255]);
}

/// Breaks a reading rule in one registry, where there is one.
fn break_registry(rng: &mut Rng, h: &mut Held, which: usize) {
    let s = &mut h.state;
    match which {
        0 => letter(rng, &mut s.id),
        1 => letter(rng, &mut s.latest),
        2 => s.issuer[0] = *rng.pick(&[0, b'A', b'C', b'J']),
        3 => s.toad = *rng.pick(&[0, 17, s.backers.len() as u32 + 1, u32::MAX]),
        4 if s.backers.len() > 1 => s.backers[0] = s.backers[1],
        5 if s.configs.len() < 8 && !s.backers.is_empty() => s.configs.push(NO_BACKERS),
        6 if !s.configs.is_empty() => s.configs[0] = *rng.pick(&[0, 7, 255]),
        7 => return h.configs = *rng.pick(&[9, 255, 1 << 32, u64::MAX]),
        8 => return h.backers = *rng.pick(&[17, 256, 1 << 32, u64::MAX]),
        _ => s.backers.iter_mut().take(1).for_each(|p| p[0] = *rng.pick(b"EAC")),
    }
    h.configs = s.configs.len() as u64;
    h.backers = s.backers.len() as u64;
}

/// Breaks a reading rule, where the ledger is large enough for that.
pub fn break_rule(rng: &mut Rng, t: &mut Table, which: usize) {
    let (n, m) = (t.registries.len(), t.rows.len());
    match which {
        10 if n > 1 => {
            let (a, b) = (rng.below(n), rng.below(n));
            t.registries[a].state.id = t.registries[b].state.id;
        }
        11 if m > 1 => {
            let (a, b) = (rng.below(m), rng.below(m));
            let (registry, credential) = (t.rows[b].registry, t.rows[b].credential);
            (t.rows[a].registry, t.rows[a].credential) = (registry, credential);
        }
        12 if m > 0 => {
            let k = rng.below(m);
            t.rows[k].registry = rng.near(&t.rows[k].registry);
        }
        13 if m > 0 => t.rows[rng.below(m)].sn = *rng.pick(&[2, 1 << 64, u128::MAX, 1 << 127]),
        14 if m > 0 => {
            let k = rng.below(m);
            let row = &mut t.rows[k];
            match rng.below(3) {
                0 => letter(rng, &mut row.registry),
                1 => letter(rng, &mut row.credential),
                _ => letter(rng, &mut row.head),
            }
        }
        15 => match rng.once_in(2) {
            true => t.registry_count = *rng.pick(&[17, 255, 1 << 32, u64::MAX]),
            false => t.row_count = *rng.pick(&[257, 65_535, 1 << 32, u64::MAX]),
        },
        _ if n > 0 => {
            let k = rng.below(n);
            break_registry(rng, &mut t.registries[k], which);
        }
        _ => t.registry_count = 17,
    }
}
