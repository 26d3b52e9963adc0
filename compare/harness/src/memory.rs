//! The ledger as the block of memory that a host lends: where its fields stand, read and written. Every pattern of bits is a ledger, so
//! that states in it may break their layout; they are read as they are.
use crate::host::{Block, LEDGER};
use crate::keys::Prim;
use crate::scene::{Credential, Registry};

const MATTER: usize = 40;
const SN: usize = 16;
/// Of a registry: id, issuer, sn, latest, toad, configs with their count, backers with theirs.
pub const REGISTRY: usize = 808;
const CONFIGS: usize = 3 * MATTER + SN + 8;
const BACKERS: usize = CONFIGS + 16;
/// Of a credential: registry, credential, sn, head.
pub const ROW: usize = 3 * MATTER + SN;
const COUNT: usize = 16 * REGISTRY;
const ROWS: usize = COUNT + 8;
const ROW_COUNT: usize = ROWS + 256 * ROW;

const _: () = assert!(BACKERS + 16 * MATTER + 8 == REGISTRY && ROW_COUNT + 8 == LEDGER);

/// What stands in a block: both counts as they are, and every state, those behind the counts too.
#[derive(Clone, PartialEq, Eq, Debug)]
pub struct Table {
    pub registry_count: u64,
    pub registries: Vec<Held>,
    pub row_count: u64,
    pub rows: Vec<Credential>,
}

/// A registry's fields up to the counts of its lists, and both counts as they are.
#[derive(Clone, PartialEq, Eq, Debug)]
pub struct Held {
    pub state: Registry,
    pub configs: u64,
    pub backers: u64,
}

impl Held {
    pub fn new(state: Registry) -> Self {
        Self { configs: state.configs.len() as u64, backers: state.backers.len() as u64, state }
    }
}

fn word(b: &[u8], at: usize) -> u64 {
    u64::from_ne_bytes(b[at..at + 8].try_into().expect("8 bytes"))
}

fn put(b: &mut [u8], at: usize, w: u64) {
    b[at..at + 8].copy_from_slice(&w.to_ne_bytes());
}

/// The letter has a word. One that is no byte is no letter either, as 0 is none.
fn matter(b: &[u8], at: usize) -> Prim {
    let mut p = [u8::try_from(word(b, at)).unwrap_or(0); 33];
    for k in 0..4 {
        p[1 + 8 * k..9 + 8 * k].copy_from_slice(&word(b, at + 8 + 8 * k).to_be_bytes());
    }
    p
}

fn put_matter(b: &mut [u8], at: usize, p: &Prim) {
    put(b, at, u64::from(p[0]));
    for k in 0..4 {
        put(b, at + 8 + 8 * k, u64::from_be_bytes(p[1 + 8 * k..9 + 8 * k].try_into().expect("8 bytes")));
    }
}

fn sn(b: &[u8], at: usize) -> u128 {
    u128::from(word(b, at)) << 64 | u128::from(word(b, at + 8))
}

fn put_sn(b: &mut [u8], at: usize, n: u128) {
    put(b, at, (n >> 64) as u64);
    put(b, at + 8, n as u64);
}

pub fn registry_at(b: &[u8]) -> Held {
    let (configs, backers) = (word(b, CONFIGS + 8), word(b, BACKERS + 16 * MATTER));
    let state = Registry {
        id: matter(b, 0),
        issuer: matter(b, MATTER),
        sn: sn(b, 2 * MATTER),
        latest: matter(b, 2 * MATTER + SN),
        toad: u32::from_ne_bytes(b[3 * MATTER + SN..3 * MATTER + SN + 4].try_into().expect("4 bytes")),
        configs: b[CONFIGS..CONFIGS + configs.min(8) as usize].to_vec(),
        backers: (0..backers.min(16) as usize).map(|k| matter(b, BACKERS + k * MATTER)).collect(),
    };
    Held { state, configs, backers }
}

/// Stores the fields; what stands between and behind them stays.
pub fn put_registry(b: &mut [u8], held: &Held) {
    let s = &held.state;
    put_matter(b, 0, &s.id);
    put_matter(b, MATTER, &s.issuer);
    put_sn(b, 2 * MATTER, s.sn);
    put_matter(b, 2 * MATTER + SN, &s.latest);
    b[3 * MATTER + SN..3 * MATTER + SN + 4].copy_from_slice(&s.toad.to_ne_bytes());
    for (k, c) in s.configs.iter().take(8).enumerate() {
        b[CONFIGS + k] = *c;
    }
    put(b, CONFIGS + 8, held.configs);
    for (k, p) in s.backers.iter().take(16).enumerate() {
        put_matter(b, BACKERS + k * MATTER, p);
    }
    put(b, BACKERS + 16 * MATTER, held.backers);
}

pub fn row_at(b: &[u8]) -> Credential {
    Credential { registry: matter(b, 0), credential: matter(b, MATTER), sn: sn(b, 2 * MATTER), head: matter(b, 2 * MATTER + SN) }
}

pub fn put_row(b: &mut [u8], s: &Credential) {
    put_matter(b, 0, &s.registry);
    put_matter(b, MATTER, &s.credential);
    put_sn(b, 2 * MATTER, s.sn);
    put_matter(b, 2 * MATTER + SN, &s.head);
}

impl Block {
    pub fn zero() -> Box<Self> {
        Box::new(Self([0; LEDGER]))
    }

    pub fn registry_count(&self) -> u64 {
        word(&self.0, COUNT)
    }

    pub fn row_count(&self) -> u64 {
        word(&self.0, ROW_COUNT)
    }

    pub fn set_counts(&mut self, registries: u64, rows: u64) {
        put(&mut self.0, COUNT, registries);
        put(&mut self.0, ROW_COUNT, rows);
    }

    pub fn registry(&self, k: usize) -> &[u8] {
        &self.0[k * REGISTRY..(k + 1) * REGISTRY]
    }

    pub fn registry_mut(&mut self, k: usize) -> &mut [u8] {
        &mut self.0[k * REGISTRY..(k + 1) * REGISTRY]
    }

    pub fn row(&self, k: usize) -> &[u8] {
        &self.0[ROWS + k * ROW..ROWS + (k + 1) * ROW]
    }

    pub fn row_mut(&mut self, k: usize) -> &mut [u8] {
        &mut self.0[ROWS + k * ROW..ROWS + (k + 1) * ROW]
    }

    /// The states in use; a count above its limit is taken as the limit, and told beside them.
    pub fn table(&self) -> Table {
        let (registries, rows) = (self.registry_count(), self.row_count());
        Table {
            registry_count: registries,
            registries: (0..registries.min(16) as usize).map(|k| registry_at(self.registry(k))).collect(),
            row_count: rows,
            rows: (0..rows.min(256) as usize).map(|k| row_at(self.row(k))).collect(),
        }
    }

    pub fn store(&mut self, table: &Table) {
        for (k, r) in table.registries.iter().take(16).enumerate() {
            put_registry(self.registry_mut(k), r);
        }
        for (k, r) in table.rows.iter().take(256).enumerate() {
            put_row(self.row_mut(k), r);
        }
        self.set_counts(table.registry_count, table.row_count);
    }
}

/// Bytes of a block that belong to no field: behind a registry's toad.
pub fn is_padding(at: usize) -> bool {
    at < COUNT && (CONFIGS - 4..CONFIGS).contains(&(at % REGISTRY))
}
