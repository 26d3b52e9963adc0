//! The 36 bytes in which a call answers: number, letter, evidence kind, how many values, and two values of 16 bytes.
use crate::refusal::Refused;
use crate::sys::REPORT_BYTES;

pub(crate) struct Report([u8; REPORT_BYTES]);

/// Makes a call, which gets the report to write, and reads what it answers.
pub(crate) fn answer(call: impl FnOnce(*mut [u8; REPORT_BYTES]) -> u8) -> Result<Report, Refused> {
    let mut report = Report([0; REPORT_BYTES]);
    call(&mut report.0);
    match report.number() {
        0 => Ok(report),
        _ => Err(Refused::read(&report)),
    }
}

impl Report {
    pub(crate) fn number(&self) -> u8 {
        self.0[0]
    }

    pub(crate) fn letter(&self) -> u8 {
        self.0[1]
    }

    pub(crate) fn awaited(&self) -> u8 {
        self.0[2]
    }

    /// The value at position 0 or 1.
    pub(crate) fn value(&self, position: usize) -> u128 {
        let at = 4 + 16 * position;
        u128::from_be_bytes(self.0[at..at + 16].try_into().expect("16 bytes"))
    }

    /// A value that is a count of bytes, of receipts, or a position.
    pub(crate) fn size(&self, position: usize) -> usize {
        let value = self.value(position);
        usize::try_from(value).unwrap_or_else(|_| self.stranger("a size", value))
    }

    /// A value that is a toad.
    pub(crate) fn toad(&self, position: usize) -> u32 {
        let value = self.value(position);
        u32::try_from(value).unwrap_or_else(|_| self.stranger("a toad", value))
    }

    /// The library is proved to answer nothing else than what is read here, so this is never met with the archive that this crate
    /// belongs to.
    pub(crate) fn stranger(&self, what: &str, got: impl std::fmt::Display) -> ! {
        panic!(
            "libhost.a is of another version than this crate: it answers {got} for {what}, in the report {:?}",
            self.0
        )
    }
}

#[cfg(test)]
mod tests {
    use super::*;
    use crate::{Disposition, EvidenceKind, Refusal};

    fn report(number: u8, letter: u8, awaited: u8, values: [u128; 2]) -> Report {
        let mut bytes = [number, letter, awaited, 2].to_vec();
        bytes.extend(values.iter().flat_map(|value| value.to_be_bytes()));
        Report(bytes.try_into().unwrap())
    }

    #[test]
    fn values_are_big_endian() {
        let mut bytes = [0; REPORT_BYTES];
        (0..REPORT_BYTES).for_each(|i| bytes[i] = i as u8);
        assert_eq!(Report(bytes).value(0), 0x0405060708090a0b0c0d0e0f10111213);
        assert_eq!(Report(bytes).value(1), 0x1415161718191a1b1c1d1e1f20212223);
    }

    #[test]
    fn every_number_is_read_and_told_again() {
        for number in 1..=39 {
            let refused = Refused::read(&report(number, b'T', 0, [1, 2]));
            assert_eq!(refused.refusal.number(), number);
            assert_eq!(refused.disposition, Disposition::Terminal);
        }
    }

    #[test]
    fn every_evidence_kind_is_read_and_told_again() {
        for kind in [2, 11, 12, 13, 14, 17, 20] {
            let Disposition::Awaiting(read) = Disposition::read(&report(2, b'W', kind, [5, 6])) else { panic!() };
            assert_eq!(read.number(), kind);
        }
        let read = Disposition::read(&report(27, b'W', 17, [5, 6]));
        assert_eq!(read, Disposition::Awaiting(EvidenceKind::BackerReceipts { valid: 5, required: 6 }));
    }

    #[test]
    fn details_keep_their_order() {
        let of = |number| Refused::read(&report(number, b'T', 0, [1, 2])).refusal;
        assert_eq!(of(16), Refusal::OutOfOrder { expected: 1, actual: 2 });
        assert_eq!(of(23), Refusal::UnresolvedAnchor { sn: 1 });
        assert_eq!(of(24), Refusal::BackerSet { rule: crate::Rule::DuplicateBacker, at: 2 });
        assert_eq!(of(27), Refusal::MissingBackerReceipts { valid: 1, required: 2 });
    }

    #[test]
    #[should_panic(expected = "another version")]
    fn a_number_that_no_call_answers() {
        Refused::read(&report(40, b'T', 0, [0, 0]));
    }
}
