//! Backers' keys and their signatures, real ones and, for measuring, verdicts in their place.
use crate::decode::Attempt;
use crate::fold::governing;
use cesr::core::primitives::Siger;
use cesr::sodium;
use keri::RegistryState;
use keri_events::BasicPrefix;
use std::borrow::Cow;
use std::cell::{Cell, RefCell};
use std::collections::HashMap;
use std::rc::Rc;

pub type Prim = [u8; 33];

pub trait Keys {
    /// The public key that stands for the 32 bytes of a prefix.
    fn public<'a>(&self, prefix: &'a Prim) -> Cow<'a, [u8]>;
    /// The prefix that such a key stands for.
    fn original(&self, prefix: &BasicPrefix<'_>) -> Prim;
    /// Signatures over the attempt's body that have its verdicts, by the backers by whom they will be judged: those of the attempt, or of
    /// the registry that is held.
    fn signatures<'a>(&self, attempt: &Attempt<'a>, held: Option<&RegistryState>) -> Vec<Siger<'a>>;
}

/// No cryptography: a prefix is itself, a signature is its verdict. All signatures of an attempt differ, by their ondex.
pub struct Verdicts;

impl Keys for Verdicts {
    fn public<'a>(&self, prefix: &'a Prim) -> Cow<'a, [u8]> {
        Cow::Borrowed(&prefix[1..])
    }

    fn original(&self, prefix: &BasicPrefix<'_>) -> Prim {
        letter_and(prefix.code().letter(), prefix.raw())
    }

    fn signatures<'a>(&self, attempt: &Attempt<'a>, _: Option<&RegistryState>) -> Vec<Siger<'a>> {
        let all = attempt.signatures.iter().zip(0..);
        all.map(|((index, verdict), turn)| Siger::from_parts(*index, Some(turn), Cow::Borrowed(*verdict))).collect()
    }
}

fn letter_and(letter: u8, raw: &[u8]) -> Prim {
    let mut p = [letter; 33];
    p[1..].copy_from_slice(raw);
    p
}

struct Pair {
    prefix: Prim,
    seed: [u8; 32],
    public: [u8; 32],
    secret: [u8; 64],
}

/// Ed25519. The 32 bytes of a prefix are the seed of a key pair, so that every prefix, a damaged one too, has one. The Rust gets the
/// public key in their place; different prefixes have different keys, so that all comparisons come out the same.
#[derive(Default)]
pub struct Real {
    pairs: RefCell<HashMap<Prim, Rc<Pair>>>,
    by_public: RefCell<HashMap<Prim, Rc<Pair>>>,
    /// Good signatures, by the public key and the message's digest.
    made: RefCell<HashMap<([u8; 32], [u8; 32]), [u8; 64]>>,
    pub signed: Cell<u64>,
    /// Another number makes other signatures with the same verdicts.
    pub salt: Cell<u64>,
}

const KEPT: usize = 100_000;

impl Real {
    fn pair(&self, prefix: &Prim) -> Rc<Pair> {
        if let Some(pair) = self.pairs.borrow().get(prefix) {
            return pair.clone();
        }
        if self.pairs.borrow().len() >= KEPT {
            self.pairs.borrow_mut().clear();
        }
        let seed = prefix[1..].try_into().expect("32 bytes");
        let (public, secret) = sodium::keypair(&seed);
        let pair = Rc::new(Pair { prefix: *prefix, seed, public, secret });
        self.by_public.borrow_mut().insert(letter_and(prefix[0], &public), pair.clone());
        self.pairs.borrow_mut().insert(*prefix, pair.clone());
        pair
    }

    fn good(&self, pair: &Pair, message: &[u8], digest: &[u8; 32]) -> [u8; 64] {
        let key = (pair.public, *digest);
        if let Some(signature) = self.made.borrow().get(&key) {
            return *signature;
        }
        if self.made.borrow().len() >= KEPT {
            self.made.borrow_mut().clear();
        }
        self.signed.set(self.signed.get() + 1);
        let signature = sodium::sign(message, &pair.secret);
        self.made.borrow_mut().insert(key, signature);
        signature
    }

    /// A good signature: the usual one, one of another nonce, or the usual one with an ondex.
    fn passes(&self, pair: &Pair, message: &[u8], digest: &[u8; 32], turn: u64) -> ([u8; 64], Option<u32>) {
        match turn % 8 {
            5 => (sodium::sign_other_nonce(message, &pair.seed, &pair.public, turn % 3), None),
            6 => (self.good(pair, message, digest), Some((turn % 3) as u32)),
            _ => (self.good(pair, message, digest), None),
        }
    }

    /// A failed one: a bit of a good one changed, a good one over another message or by another backer, or no signature at all.
    fn fails(&self, pair: &Pair, others: &[Rc<Pair>], message: &[u8], digest: &[u8; 32], turn: u64) -> [u8; 64] {
        let mut signature = self.good(pair, message, digest);
        match turn % 6 {
            0 => signature[5] ^= 1,
            1 => signature[40] ^= 0x10,
            2 => {
                let mut other = message.to_vec();
                let at = turn as usize % other.len();
                other[at] ^= 1;
                signature = self.good(pair, &other, &sodium::digest(&other));
            }
            3 => match others.iter().find(|o| o.public != pair.public) {
                Some(other) => signature = self.good(other, message, digest),
                None => signature = sodium::sign(message, &sodium::keypair(&[0x5a; 32]).1),
            },
            4 => signature = [0; 64],
            _ => signature = sodium::sha512(&signature),
        }
        signature
    }
}

impl Keys for Real {
    fn public<'a>(&self, prefix: &'a Prim) -> Cow<'a, [u8]> {
        Cow::Owned(self.pair(prefix).public.to_vec())
    }

    fn original(&self, prefix: &BasicPrefix<'_>) -> Prim {
        self.by_public.borrow()[&letter_and(prefix.code().letter(), prefix.raw())].prefix
    }

    fn signatures<'a>(&self, attempt: &Attempt<'a>, held: Option<&RegistryState>) -> Vec<Siger<'a>> {
        let pairs: Vec<Rc<Pair>> = governing(attempt, held).iter().map(|b| self.pair(&self.original(b))).collect();
        let stranger = self.pair(&[b'B'; 33]);
        let digest = sodium::digest(attempt.body);
        let mut all = Vec::with_capacity(attempt.signatures.len());
        for (turn, (index, verdict)) in (self.salt.get()..).zip(&attempt.signatures) {
            let pair = match pairs.len() {
                0 => &stranger,
                n => &pairs[*index as usize % n],
            };
            let (raw, ondex) = match verdict[0] {
                1 => self.passes(pair, attempt.body, &digest, turn),
                _ => (self.fails(pair, &pairs, attempt.body, &digest, turn), None),
            };
            all.push(Siger::from_parts(*index, ondex, Cow::Owned(raw.to_vec())));
        }
        all
    }
}
