//! The calls as they are, over lent memory. Each call is held to what holds of all: the whole report is written and is a proper one, the
//! call returns its number, nothing beside the lent bytes is written, and after a refusal what is lent is as it was.
use super::lent::{Lent, Side};
use jamfell::sys::{self, Ledger, LEDGER_BYTES, REPORT_BYTES};

/// A report, taken apart.
#[derive(Debug, Clone, PartialEq)]
pub struct Answer {
    pub number: u8,
    pub letter: char,
    pub awaited: u8,
    pub values: Vec<u128>,
}

pub struct Host {
    pub ledger: Lent,
    report: Lent,
    inputs: [Lent; 3],
    out: Lent,
}

/// What stands in a report before a call. No proper report has it at any place.
const BLANK: u8 = 0xee;
/// What stands in a buffer before a call.
pub const EMPTY: u8 = 0x5a;

impl Host {
    /// With an empty ledger.
    pub fn new(side: Side) -> Host {
        let lent = |room| Lent::new(room, side);
        let mut host = Host {
            ledger: lent(LEDGER_BYTES),
            report: lent(REPORT_BYTES),
            inputs: [lent(70_000), lent(4096), lent(4096)],
            out: lent(40_960),
        };
        host.ledger.lend(LEDGER_BYTES, 0);
        host
    }

    fn input(&mut self, at: usize, bytes: &[u8]) -> (*const u8, usize) {
        let lent = self.inputs[at].lend_copy(bytes);
        (lent.as_ptr(), lent.len())
    }

    fn out(&mut self, size: usize) -> (*mut u8, usize) {
        let lent = self.out.lend(size, EMPTY);
        (lent.as_mut_ptr(), lent.len())
    }

    /// Makes a call, which gets the block and the report, and holds it to what holds of all.
    fn call(&mut self, values: usize, call: impl FnOnce(*mut Ledger, *mut [u8; REPORT_BYTES]) -> u8) -> Answer {
        let (block, out) = (self.ledger.bytes().to_vec(), self.out.bytes().to_vec());
        let lent = self.ledger.bytes_mut().as_mut_ptr().cast();
        let report = self.report.lend(REPORT_BYTES, BLANK).as_mut_ptr().cast();
        let returned = call(lent, report);
        let answer = taken_apart(self.report.bytes(), values);
        assert_eq!(returned, answer.number);
        let mut all = self.inputs.iter().chain([&self.ledger, &self.report, &self.out]);
        assert!(all.all(Lent::is_guarded), "something beside what is lent was written");
        if answer.number != 0 {
            assert!(block == self.ledger.bytes(), "a refusal changed the block: {answer:?}");
            assert!(out == self.out.bytes(), "a refusal wrote to the buffer: {answer:?}");
        }
        answer
    }

    /// The call without a report.
    pub fn empty(&mut self) {
        // SAFETY: the block is lent.
        unsafe { sys::jamfell_empty(self.ledger.bytes_mut().as_mut_ptr().cast()) };
        assert!(self.ledger.is_guarded());
    }

    pub fn apply(&mut self, attempt: &[u8]) -> Answer {
        let (at, size) = self.input(0, attempt);
        // SAFETY: in this and the other calls all that is handed over is lent, apart from each other.
        self.call(0, |block, report| unsafe { sys::jamfell_apply(block, at, size, report) })
    }

    pub fn look_up(&mut self, registry: &[u8], credential: &[u8]) -> Answer {
        let ((r, r_size), (c, c_size)) = (self.input(0, registry), self.input(1, credential));
        self.call(1, |block, report| unsafe { sys::jamfell_look_up(block, r, r_size, c, c_size, report) })
    }

    /// The answer, and the buffer after the call.
    pub fn write_image(&mut self, room: usize) -> (Answer, Vec<u8>) {
        let (out, size) = self.out(room);
        let answer = self.call(1, |block, report| unsafe { sys::jamfell_write_image(block, out, size, report) });
        (answer, self.out.bytes().to_vec())
    }

    pub fn read_image(&mut self, image: &[u8]) -> Answer {
        let (at, size) = self.input(0, image);
        self.call(0, |block, report| unsafe { sys::jamfell_read_image(block, at, size, report) })
    }

    pub fn registry_incept(&mut self, attempt: &[u8], room: usize) -> (Answer, Vec<u8>) {
        let ((at, size), (out, out_size)) = (self.input(0, attempt), self.out(room));
        let answer = self.call(1, |_, report| unsafe { sys::jamfell_registry_incept(at, size, out, out_size, report) });
        (answer, self.out.bytes().to_vec())
    }

    pub fn registry_ingest(&mut self, state: &[u8], attempt: &[u8], room: usize) -> (Answer, Vec<u8>) {
        let ((s, s_size), (at, size), (out, out_size)) = (self.input(1, state), self.input(0, attempt), self.out(room));
        let answer = self
            .call(1, |_, report| unsafe { sys::jamfell_registry_ingest(s, s_size, at, size, out, out_size, report) });
        (answer, self.out.bytes().to_vec())
    }

    pub fn credential_incept(&mut self, registry: &[u8], attempt: &[u8], room: usize) -> (Answer, Vec<u8>) {
        let ((r, r_size), (at, size), (out, out_size)) =
            (self.input(1, registry), self.input(0, attempt), self.out(room));
        let answer = self
            .call(1, |_, report| unsafe { sys::jamfell_credential_incept(r, r_size, at, size, out, out_size, report) });
        (answer, self.out.bytes().to_vec())
    }

    pub fn credential_ingest(&mut self, states: [&[u8]; 2], attempt: &[u8], room: usize) -> (Answer, Vec<u8>) {
        let ((r, r_size), (c, c_size)) = (self.input(1, states[0]), self.input(2, states[1]));
        let ((at, size), (out, out_size)) = (self.input(0, attempt), self.out(room));
        let answer = self.call(1, |_, report| unsafe {
            sys::jamfell_credential_ingest(r, r_size, c, c_size, at, size, out, out_size, report)
        });
        (answer, self.out.bytes().to_vec())
    }

    pub fn decode(&mut self, attempt: &[u8]) -> Answer {
        let (at, size) = self.input(0, attempt);
        self.call(1, |_, report| unsafe { sys::jamfell_decode(at, size, report) })
    }

    pub fn status(&mut self, input: &[u8]) -> Answer {
        let (at, size) = self.input(0, input);
        self.call(0, |_, report| unsafe { sys::jamfell_status(at, size, report) })
    }

    pub fn exact(&mut self, toad: u32, backers: usize) -> Answer {
        self.call(0, |_, report| unsafe { sys::jamfell_exact(toad, backers, report) })
    }

    pub fn ample(&mut self, backers: usize) -> Answer {
        self.call(1, |_, report| unsafe { sys::jamfell_ample(backers, report) })
    }
}

/// The letter, the evidence awaited, and how many values a number has. An acceptance has as many values as its call.
fn expected(number: u8, values: &[u128], accepted: usize) -> (char, u8, usize) {
    match number {
        0 => ('A', 0, accepted),
        3 | 4 => ('C', 0, 0),
        16 if values[1] > values[0] => ('W', 14, 2),
        16 => ('C', 0, 2),
        2 | 31 => ('W', 11, 0),
        5 | 32 => ('W', 2, 0),
        18 | 33 => ('W', 12, 0),
        20 => ('W', 13, 0),
        23 => ('W', 20, 1),
        24 => ('T', 0, 2),
        27 => ('W', 17, 2),
        1..=39 => ('T', 0, 0),
        40.. => panic!("no call answers {number}"),
    }
}

fn taken_apart(report: &[u8], accepted: usize) -> Answer {
    let value = |at: usize| u128::from_be_bytes(report[at..at + 16].try_into().unwrap());
    let values = [value(4), value(20)];
    let (number, letter, awaited, count) = (report[0], char::from(report[1]), report[2], usize::from(report[3]));
    assert_eq!((letter, awaited, count), expected(number, &values, accepted), "number {number}");
    assert!(values[count..].iter().all(|value| *value == 0));
    match number {
        16 => assert_ne!(values[0], values[1]),
        24 => assert!((1..=6).contains(&values[0]) && values[1] < 16),
        27 => assert!(values[0] < values[1] && values[0] <= 16),
        _ => (),
    }
    Answer { number, letter, awaited, values: values[..count].to_vec() }
}
