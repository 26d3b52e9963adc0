//! One case: the Rust's answer and ours, compared to the last byte. What is not to be written has to stay as it was.
use crate::answer::{Answer, REPORT};
use crate::host::Said;
use crate::keys::{Real, Verdicts};
use crate::make::Fold;
use crate::random::Rng;
use crate::{decode, encode, fold, host};
use std::collections::BTreeMap;
use std::fmt::Write;

/// What a call was given, what it was expected to answer, and what was found.
pub struct Difference {
    pub call: &'static str,
    pub inputs: Vec<(&'static str, Vec<u8>)>,
    pub expected: Answer,
    pub found: Answer,
    pub what: String,
}

pub fn hex(bytes: &[u8]) -> String {
    bytes.iter().fold(String::with_capacity(2 * bytes.len()), |mut out, b| {
        write!(out, "{b:02x}").expect("a string takes it");
        out
    })
}

impl Difference {
    pub fn text(&self) -> String {
        let mut out = format!("{}: {}\n  expected {:?}\n  found    {:?}\n", self.call, self.what, self.expected, self.found);
        for (name, bytes) in &self.inputs {
            writeln!(out, "  {name} {}", hex(bytes)).expect("a string takes it");
        }
        out
    }
}

/// A call of a fold over bytes, with the length of the buffer for the next state.
pub struct FoldCase {
    pub fold: Fold,
    pub registry: Vec<u8>,
    pub credential: Vec<u8>,
    pub attempt: Vec<u8>,
    pub room: usize,
}

/// What was counted and found.
#[derive(Default)]
pub struct Tally {
    /// For each call how often each number was answered; 24 is counted for each of its rules.
    pub seen: BTreeMap<(&'static str, u8, u8), u64>,
    pub cases: u64,
    /// The first of them, and how many there are.
    pub differences: Vec<Difference>,
    pub found: u64,
    pub signed: u64,
}

/// All numbers that a call can answer, but 24.
const NUMBERS: &[(&str, &[u8])] = &[
    ("registry_incept", &[0, 1, 6, 11, 18, 19, 20, 21, 26, 27, 30]),
    ("registry_ingest", &[0, 1, 3, 7, 10, 14, 15, 16, 17, 18, 19, 20, 21, 25, 26, 27, 30]),
    ("credential_incept", &[0, 1, 8, 10, 12, 13, 18, 19, 20, 21, 22, 23, 26, 27, 30]),
    ("credential_ingest", &[0, 1, 9, 10, 12, 13, 15, 16, 17, 18, 19, 20, 21, 22, 23, 26, 27, 28, 30]),
    ("decode", &[0, 1]),
    ("status", &[0, 1, 31, 32, 33, 34, 35, 36, 37, 38, 39]),
    ("exact", &[0, 26]),
    ("ample", &[0, 26]),
    ("apply", &[0, 1, 2, 3, 4, 5, 10, 11, 12, 13, 14, 15, 16, 17, 18, 19, 20, 21, 22, 23, 25, 26, 27, 29]),
    ("look_up", &[0, 1]),
    ("write_image", &[0, 1, 30]),
    ("read_image", &[0, 1]),
    ("empty", &[0]),
];

/// The rules of 24 that a call can name.
const RULES: &[(&str, &[u8])] = &[
    ("registry_incept", &[1]),
    ("registry_ingest", &[2, 3, 4, 5, 6]),
    ("credential_incept", &[1]),
    ("credential_ingest", &[1]),
    ("apply", &[1, 2, 3, 4, 5, 6]),
];

impl Tally {
    /// Answers that were never expected, though the call can give them.
    pub fn unmet(&self) -> Vec<String> {
        let of =
            |calls: &'static [(&'static str, &'static [u8])]| calls.iter().flat_map(|(call, all)| all.iter().map(move |n| (*call, *n)));
        let numbers = of(NUMBERS).map(|(call, n)| (call, n, 0)).chain(of(RULES).map(|(call, rule)| (call, 24, rule)));
        numbers.filter(|key| !self.seen.contains_key(key)).map(|(call, n, rule)| format!("{call} {n}.{rule}")).collect()
    }

    /// Takes over what another has counted.
    pub fn join(&mut self, other: Self) {
        self.cases += other.cases;
        self.found += other.found;
        self.signed += other.signed;
        for (key, n) in other.seen {
            *self.seen.entry(key).or_default() += n;
        }
        self.differences.extend(other.differences);
        self.differences.truncate(KEPT);
    }
}

pub struct Checker {
    pub keys: Real,
    pub tally: Tally,
    /// A self-test: every answer of ours is changed in one bit, and every case has to be found.
    pub tamper: Option<Rng>,
    pub(crate) buffer: Vec<u8>,
}

const GUARD: usize = 16;
const KEPT: usize = 10;

impl Checker {
    pub fn new(tamper: Option<Rng>) -> Self {
        Self { keys: Real::default(), tally: Tally::default(), tamper, buffer: Vec::with_capacity(70_000) }
    }

    /// Changes one bit of what was returned, of the report or of the bytes that were lent.
    pub(crate) fn tampered(tamper: &mut Option<Rng>, said: &mut Said, lent: &mut [u8]) {
        if let Some(rng) = tamper {
            let at = rng.below(1 + REPORT + lent.len());
            let byte = match at {
                0 => &mut said.number,
                1..=REPORT => &mut said.report[at - 1],
                _ => &mut lent[at - 1 - REPORT],
            };
            *byte ^= 1 << rng.below(8);
        }
    }

    pub(crate) fn count(&mut self, call: &'static str, expected: &Answer) {
        self.tally.cases += 1;
        let rule = if expected.number == 24 { expected.values[0] as u8 } else { 0 };
        *self.tally.seen.entry((call, expected.number, rule)).or_default() += 1;
    }

    pub(crate) fn differs(
        &mut self,
        call: &'static str,
        inputs: &[(&'static str, &[u8])],
        expected: Answer,
        said: &Said,
        what: impl Into<String>,
    ) {
        self.tally.found += 1;
        if self.tally.differences.len() < KEPT {
            let inputs = inputs.iter().map(|(name, bytes)| (*name, bytes.to_vec())).collect();
            self.tally.differences.push(Difference { call, inputs, expected, found: said.answer(), what: what.into() });
        }
    }

    /// The report, and the number beside it.
    pub(crate) fn same_report(said: &Said, expected: &Answer) -> Result<(), String> {
        if said.report != expected.bytes() {
            return Err(format!("the report differs: {}", hex(&said.report)));
        }
        if said.number != expected.number {
            return Err(format!("{} is returned", said.number));
        }
        Ok(())
    }

    /// A buffer of this length with bytes of its own in it, between guards.
    pub(crate) fn lend(&mut self, room: usize) {
        self.buffer.clear();
        let first = self.tally.cases as usize;
        self.buffer.extend((0..room + 2 * GUARD).map(|k| (first.wrapping_add(k * 7)) as u8));
    }

    pub(crate) fn lent(&mut self, room: usize) -> &mut [u8] {
        &mut self.buffer[GUARD..GUARD + room]
    }

    /// The buffer between and behind the guards: `written`, and after it what stood there.
    pub(crate) fn same_buffer(&self, written: &[u8]) -> Result<(), String> {
        let first = self.tally.cases as usize;
        let kept = |k: usize| self.buffer[k] == (first.wrapping_add(k * 7)) as u8;
        let end = GUARD + written.len();
        if self.buffer[GUARD..end] != *written {
            return Err(format!("the bytes written differ: {}", hex(&self.buffer[GUARD..end])));
        }
        match (0..GUARD).chain(end..self.buffer.len()).find(|k| !kept(*k)) {
            Some(k) => {
                Err(format!("a byte that was not to be written has changed, {} behind the buffer's start", k as isize - GUARD as isize))
            }
            None => Ok(()),
        }
    }

    /// What the Rust answers, and the next state's bytes.
    fn fold_expected(&self, case: &FoldCase) -> Result<Vec<u8>, Answer> {
        let malformed = || Answer::terminal(1);
        let registry = |bytes: &[u8]| decode::registry(bytes, &self.keys).ok_or_else(malformed);
        let salt = self.tally.cases as usize;
        let attempt = decode::attempt(&case.attempt, &self.keys, salt).ok_or_else(malformed);
        self.keys.salt.set(salt as u64 / 16);
        let next = match case.fold {
            Fold::RegistryIncept => encode::registry(&fold::registry_incept(&attempt?, &self.keys)?, &self.keys),
            Fold::RegistryIngest => {
                let held = registry(&case.registry)?;
                let mut next = held.clone();
                let result = fold::registry_ingest(&mut next, &attempt?, &self.keys);
                assert!(result.is_ok() || next == held, "the Rust refused and changed the state");
                result?;
                encode::registry(&next, &self.keys)
            }
            Fold::CredentialIncept => {
                let held = registry(&case.registry)?;
                encode::credential(&fold::credential_incept(&held, &attempt?, &self.keys)?)
            }
            Fold::CredentialIngest => {
                let held = registry(&case.registry)?;
                let credential = decode::credential(&case.credential, &self.keys).ok_or_else(malformed)?;
                let mut next = credential.clone();
                let result = fold::credential_ingest(&held, &mut next, &attempt?, &self.keys);
                assert!(result.is_ok() || next == credential, "the Rust refused and changed the state");
                result?;
                encode::credential(&next)
            }
        };
        if case.room < next.len() { Err(Answer::terminal(30)) } else { Ok(next) }
    }
    pub fn fold(&mut self, case: &FoldCase) -> Answer {
        let result = self.fold_expected(case);
        let (expected, written) = match &result {
            Ok(next) => (Answer::accepted(&[next.len() as u128]), &next[..]),
            Err(answer) => (*answer, &[][..]),
        };
        self.lend(case.room);
        let FoldCase { registry, credential, attempt, .. } = case;
        let before = (registry.clone(), credential.clone(), attempt.clone());
        let next = &mut self.buffer[GUARD..GUARD + case.room];
        let (call, mut said) = match case.fold {
            Fold::RegistryIncept => ("registry_incept", host::registry_incept(attempt, next)),
            Fold::RegistryIngest => ("registry_ingest", host::registry_ingest(registry, attempt, next)),
            Fold::CredentialIncept => ("credential_incept", host::credential_incept(registry, attempt, next)),
            Fold::CredentialIngest => ("credential_ingest", host::credential_ingest(registry, credential, attempt, next)),
        };
        Self::tampered(&mut self.tamper, &mut said, &mut self.buffer);
        let mut judged = Self::same_report(&said, &expected).and_then(|()| self.same_buffer(written));
        if (registry, credential, attempt) != (&before.0, &before.1, &before.2) {
            judged = Err("an input has changed".to_owned());
        }
        if let Err(what) = judged {
            let inputs = [("registry", &registry[..]), ("credential", credential), ("attempt", attempt)];
            self.differs(call, &inputs, expected, &said, what);
        }
        self.count(call, &expected);
        expected
    }
    /// Whether bytes are an attempt. The first byte of one is its kind.
    pub fn decode(&mut self, attempt: &[u8]) {
        let read = decode::attempt(attempt, &Verdicts, 0);
        let expected = if read.is_some() { Answer::accepted(&[attempt[0].into()]) } else { Answer::terminal(1) };
        let mut said = host::decode(attempt);
        Self::tampered(&mut self.tamper, &mut said, &mut []);
        if let Err(what) = Self::same_report(&said, &expected) {
            self.differs("decode", &[("attempt", attempt)], expected, &said, what);
        }
        self.count("decode", &expected);
    }

    pub fn status(&mut self, input: &[u8]) {
        let expected = decode::status(input, &self.keys).map_or_else(|| Answer::terminal(1), |read| fold::status(&read));
        let mut said = host::status(input);
        Self::tampered(&mut self.tamper, &mut said, &mut []);
        if let Err(what) = Self::same_report(&said, &expected) {
            self.differs("status", &[("input", input)], expected, &said, what);
        }
        self.count("status", &expected);
    }
    pub fn thresholds(&mut self, toad: u32, backers: usize) {
        let calls =
            [("exact", fold::exact(toad, backers), host::exact(toad, backers)), ("ample", fold::ample(backers), host::ample(backers))];
        for (call, expected, mut said) in calls {
            Self::tampered(&mut self.tamper, &mut said, &mut []);
            if let Err(what) = Self::same_report(&said, &expected) {
                let inputs = [("toad", &toad.to_be_bytes()[..]), ("backers", &(backers as u64).to_be_bytes())];
                self.differs(call, &inputs, expected, &said, what);
            }
            self.count(call, &expected);
        }
    }

    pub fn into_tally(mut self) -> Tally {
        self.tally.signed = self.keys.signed.get();
        self.tally
    }
}
