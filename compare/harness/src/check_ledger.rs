//! The ledger's calls: the plain ledger's answers and ours, and the whole block before and after.
use crate::answer::Answer;
use crate::check::{Checker, hex};
use crate::host::Block;
use crate::memory::{Held, is_padding, registry_at, row_at};
use crate::plain::{Changed, Ledger};
use crate::scene::{Credential, Registry};
use crate::{encode, host};

/// What a block has to be afterwards: the one before, with the slots that were to change as they are now and the counts as they must be.
fn same_block(after: &Block, expected: &Block) -> Result<(), String> {
    if after == expected {
        return Ok(());
    }
    let changed: Vec<usize> = (0..after.0.len()).filter(|k| after.0[*k] != expected.0[*k]).collect();
    match changed.iter().find(|k| !is_padding(**k)) {
        Some(k) => Err(format!("byte {k} of the ledger differs, {} in all", changed.len())),
        None => Err(format!("{} bytes of the ledger that belong to no field differ, the first is {}", changed.len(), changed[0])),
    }
}

impl Checker {
    fn same_registry(&self, held: &Held, state: &keri::RegistryState) -> Result<(), String> {
        let expected = encode::registry(state, &self.keys);
        let Registry { configs, backers, .. } = &held.state;
        let whole = held.configs == configs.len() as u64 && held.backers == backers.len() as u64;
        if whole && held.state.bytes() == expected {
            Ok(())
        } else {
            Err(format!("the registry stored differs: {}", hex(&held.state.bytes())))
        }
    }

    fn same_row(row: &Credential, state: &keri::CredentialState) -> Result<(), String> {
        if row.bytes() == encode::credential(state) { Ok(()) } else { Err(format!("the row stored differs: {}", hex(&row.bytes()))) }
    }

    /// After a refusal every bit of the block counts. After acceptance some in the state that was stored do not, so that only the report
    /// is changed.
    fn tampered_block(&mut self, said: &mut host::Said, block: &mut Block, expected: &Answer) {
        let lent: &mut [u8] = if expected.number == 0 { &mut [] } else { &mut block.0 };
        Self::tampered(&mut self.tamper, said, lent);
    }

    /// One attempt. `plain` is the block's ledger, or nothing where the block breaks a layout.
    pub fn apply(&mut self, block: &mut Block, plain: Option<&mut Ledger>, attempt: &[u8]) -> Answer {
        let before = block.clone();
        self.keys.salt.set(self.tally.cases / 16);
        let salt = self.tally.cases as usize;
        let (expected, changed, plain) = match plain {
            Some(ledger) => {
                let (answer, changed) = ledger.apply(attempt, &self.keys, salt);
                (answer, changed, Some(ledger))
            }
            None => (Answer::terminal(1), Changed::Nothing, None),
        };
        let mut said = block.apply(attempt);
        self.tampered_block(&mut said, block, &expected);
        let stored = || {
            let mut wanted = before.clone();
            match (changed, plain) {
                (Changed::Registry(k), Some(ledger)) => {
                    self.same_registry(&registry_at(block.registry(k)), &ledger.registries[k])?;
                    wanted.registry_mut(k).copy_from_slice(block.registry(k));
                    wanted.set_counts(ledger.registries.len() as u64, ledger.rows.len() as u64);
                }
                (Changed::Row(k), Some(ledger)) => {
                    Self::same_row(&row_at(block.row(k)), &ledger.rows[k])?;
                    wanted.row_mut(k).copy_from_slice(block.row(k));
                    wanted.set_counts(ledger.registries.len() as u64, ledger.rows.len() as u64);
                }
                _ => {}
            }
            same_block(block, &wanted)
        };
        if let Err(what) = Self::same_report(&said, &expected).and_then(|()| stored()) {
            self.differs("apply", &[("ledger", &before.0), ("attempt", attempt)], expected, &said, what);
        }
        self.count("apply", &expected);
        expected
    }

    pub fn look_up(&mut self, block: &Block, plain: Option<&Ledger>, registry: &[u8], credential: &[u8]) {
        let expected = plain.map_or_else(|| Answer::terminal(1), |p| p.look_up(registry, credential, &self.keys));
        let before = block.clone();
        let mut said = block.look_up(registry, credential);
        Self::tampered(&mut self.tamper, &mut said, &mut []);
        if let Err(what) = Self::same_report(&said, &expected).and_then(|()| same_block(block, &before)) {
            let inputs = [("ledger", &block.0[..]), ("registry", registry), ("credential", credential)];
            self.differs("look_up", &inputs, expected, &said, what);
        }
        self.count("look_up", &expected);
    }

    pub fn write_image(&mut self, block: &Block, plain: Option<&Ledger>, room: impl FnOnce(usize) -> usize) {
        let image = plain.and_then(|p| p.image(&self.keys));
        let room = room(image.as_ref().map_or(0, Vec::len));
        let (expected, written) = match &image {
            None => (Answer::terminal(1), &[][..]),
            Some(image) if room < image.len() => (Answer::terminal(30), &[][..]),
            Some(image) => (Answer::accepted(&[image.len() as u128]), &image[..]),
        };
        let before = block.clone();
        self.lend(room);
        let mut said = block.write_image(self.lent(room));
        Self::tampered(&mut self.tamper, &mut said, &mut self.buffer);
        let judged = Self::same_report(&said, &expected).and_then(|()| self.same_buffer(written));
        if let Err(what) = judged.and_then(|()| same_block(block, &before)) {
            let inputs = [("ledger", &block.0[..]), ("room", &(room as u64).to_be_bytes())];
            self.differs("write_image", &inputs, expected, &said, what);
        }
        self.count("write_image", &expected);
    }

    pub fn read_image(&mut self, block: &mut Block, image: &[u8]) {
        let plain = Ledger::read(image, &self.keys, true);
        let expected = if plain.is_some() { Answer::accepted(&[]) } else { Answer::terminal(1) };
        let before = block.clone();
        let mut said = block.read_image(image);
        self.tampered_block(&mut said, block, &expected);
        let stored = || {
            let mut wanted = before.clone();
            if let Some(ledger) = &plain {
                for (k, state) in ledger.registries.iter().enumerate() {
                    self.same_registry(&registry_at(block.registry(k)), state)?;
                    wanted.registry_mut(k).copy_from_slice(block.registry(k));
                }
                for (k, state) in ledger.rows.iter().enumerate() {
                    Self::same_row(&row_at(block.row(k)), state)?;
                    wanted.row_mut(k).copy_from_slice(block.row(k));
                }
                wanted.set_counts(ledger.registries.len() as u64, ledger.rows.len() as u64);
            }
            same_block(block, &wanted)
        };
        if let Err(what) = Self::same_report(&said, &expected).and_then(|()| stored()) {
            self.differs("read_image", &[("ledger", &before.0), ("image", image)], expected, &said, what);
        }
        self.count("read_image", &expected);
    }

    /// The call that empties a ledger sets its two counts and nothing else.
    pub fn empty(&mut self, block: &mut Block) {
        let mut wanted = block.clone();
        wanted.set_counts(0, 0);
        block.empty();
        // It has no report.
        let expected = Answer::accepted(&[]);
        let mut said = host::Said { number: 0, report: expected.bytes() };
        Self::tampered(&mut self.tamper, &mut said, &mut block.0);
        if let Err(what) = Self::same_report(&said, &expected).and_then(|()| same_block(block, &wanted)) {
            self.differs("empty", &[("ledger", &wanted.0)], expected, &said, what);
        }
        self.count("empty", &expected);
    }
}
