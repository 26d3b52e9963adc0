//! Random choices from a seed (splitmix64).
use crate::keys::Prim;

pub struct Rng(u64);

impl Rng {
    pub const fn new(seed: u64) -> Self {
        Self(seed)
    }

    pub fn word(&mut self) -> u64 {
        self.0 = self.0.wrapping_add(0x9e37_79b9_7f4a_7c15);
        let mut z = self.0;
        z = (z ^ (z >> 30)).wrapping_mul(0xbf58_476d_1ce4_e5b9);
        z = (z ^ (z >> 27)).wrapping_mul(0x94d0_49bb_1331_11eb);
        z ^ (z >> 31)
    }

    pub fn below(&mut self, n: usize) -> usize {
        ((u128::from(self.word()) * n as u128) >> 64) as usize
    }

    /// From `low` to `high`, both included.
    pub fn between(&mut self, low: usize, high: usize) -> usize {
        low + self.below(high - low + 1)
    }

    /// True once in `n` times.
    pub fn once_in(&mut self, n: usize) -> bool {
        self.below(n) == 0
    }

    pub fn pick<'a, T>(&mut self, all: &'a [T]) -> &'a T {
        &all[self.below(all.len())]
    }

    pub fn shuffle<T>(&mut self, all: &mut [T]) {
        for k in (1..all.len()).rev() {
            all.swap(k, self.below(k + 1));
        }
    }

    /// A few neighbours exchanged.
    pub fn shuffle_some<T>(&mut self, all: &mut [T]) {
        for _ in 0..all.len() / 4 {
            let k = self.below(all.len());
            let m = (k + self.below(5)).min(all.len() - 1);
            all.swap(k, m);
        }
    }

    fn primitive(&mut self, letters: &[u8]) -> Prim {
        let mut p = [*self.pick(letters); 33];
        for chunk in p[1..].chunks_mut(8) {
            chunk.copy_from_slice(&self.word().to_be_bytes());
        }
        p
    }

    pub fn said(&mut self) -> Prim {
        self.primitive(b"EEEEFGHI")
    }

    pub fn identifier(&mut self) -> Prim {
        self.primitive(b"BDEEFGHI")
    }

    /// One of 40 basic prefixes, of which 8 differ from another in the letter alone. So few, since each needs a key pair.
    pub fn backer(&mut self) -> Prim {
        let n = self.below(40) as u8;
        let mut p = [n % 32 + 1; 33];
        p[0] = if (n < 32) == (n % 32 % 3 == 0) { b'B' } else { b'D' };
        p
    }

    /// Another primitive of the same role that differs in as little as the letter or one bit.
    pub fn near(&mut self, p: &Prim) -> Prim {
        let mut near = *p;
        if self.once_in(3) {
            let role: &[u8] = if matches!(p[0], b'B' | b'D') { b"BD" } else { b"EFGHI" };
            while near[0] == p[0] {
                near[0] = *self.pick(role);
            }
        } else {
            let at = 1 + if self.once_in(2) { *self.pick(&[0, 7, 8, 15, 16, 23, 24, 31]) } else { self.below(32) };
            near[at] ^= 1 << self.below(8);
        }
        near
    }

    /// A number that differs, often by one, by 2^64 or in one bit.
    pub fn off(&mut self, n: u128) -> u128 {
        let other = match self.below(8) {
            0 | 1 => n.wrapping_add(1),
            2 | 3 => n.wrapping_sub(1),
            4 => n.wrapping_add(1 << 64),
            5 => n ^ 1 << self.below(128),
            6 => 0,
            _ => self.sn(),
        };
        if other == n { n.wrapping_add(1) } else { other }
    }

    /// A sequence number below 2^128 - 1: small ones, and those at the ends of the two words.
    pub fn sn(&mut self) -> u128 {
        let end = u128::from(u64::MAX);
        match self.below(12) {
            0..4 => 0,
            4 => 1,
            5 => 2,
            6 => self.below(1000) as u128,
            7 => end - self.below(2) as u128,
            8 => end + 1 + self.below(2) as u128,
            9 => u128::MAX - 1 - self.below(2) as u128,
            10 => u128::from(self.word()) << 64,
            _ => (u128::from(self.word()) << 64 | u128::from(self.word())) >> 1,
        }
    }

    /// How many backers: all numbers up to 16, the ends and small ones more often.
    pub fn backers(&mut self) -> usize {
        *self.pick(&[0, 1, 1, 2, 2, 3, 3, 4, 4, 4, 5, 6, 7, 8, 9, 10, 11, 12, 13, 14, 15, 16, 16])
    }

    /// That many different backers, none of them among `taken`.
    pub fn different(&mut self, n: usize, taken: &[Prim]) -> Vec<Prim> {
        let mut all: Vec<Prim> = Vec::with_capacity(n);
        while all.len() < n {
            let p = self.backer();
            if !all.contains(&p) && !taken.contains(&p) {
                all.push(p);
            }
        }
        all
    }
}
