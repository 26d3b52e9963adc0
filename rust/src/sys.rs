//! The library's calls as they are, for hosts that hold the block themselves. `c/jamfell.h` says what holds of all of them.
//!
//! A slice is a pointer and a length. No pointer is null, and what a call writes overlaps nothing else that it is handed. Whatever
//! the bytes are, those of a [`Ledger`] included, a call answers.

/// How many bytes a [`Ledger`] has.
pub const LEDGER_BYTES: usize = 47_760;

/// How many bytes a report has.
pub const REPORT_BYTES: usize = 36;

/// A ledger as the library has it. Every pattern of bits in it is one that gets an answer, and one whose bytes are all 0 is empty.
/// The counts can be read. The states are laid out as the library likes. Four bytes of each registry mean nothing and hold anything, so
/// a ledger is kept, sent and compared as its image, never as its block.
#[repr(C)]
#[derive(Clone)]
pub struct Ledger {
    /// 16 registry states.
    pub registries: [[u64; 101]; 16],
    /// How many of them are held.
    pub registry_count: usize,
    /// 256 credential states.
    pub rows: [[u64; 17]; 256],
    /// How many of them are held.
    pub row_count: usize,
}

const _: () = assert!(std::mem::size_of::<Ledger>() == LEDGER_BYTES);
const _: () = assert!(std::mem::align_of::<Ledger>() == 8);

extern "C" {
    /// Sets both counts to 0.
    pub fn jamfell_empty(ledger: *mut Ledger);

    /// Takes an attempt in.
    pub fn jamfell_apply(
        ledger: *mut Ledger,
        attempt: *const u8,
        attempt_size: usize,
        report: *mut [u8; REPORT_BYTES],
    ) -> u8;

    /// Looks a credential up.
    pub fn jamfell_look_up(
        ledger: *const Ledger,
        registry: *const u8,
        registry_size: usize,
        credential: *const u8,
        credential_size: usize,
        report: *mut [u8; REPORT_BYTES],
    ) -> u8;

    /// Writes the image of a ledger.
    pub fn jamfell_write_image(
        ledger: *const Ledger,
        out: *mut u8,
        out_size: usize,
        report: *mut [u8; REPORT_BYTES],
    ) -> u8;

    /// Puts the ledger of an image in the place of this one.
    pub fn jamfell_read_image(
        ledger: *mut Ledger,
        image: *const u8,
        image_size: usize,
        report: *mut [u8; REPORT_BYTES],
    ) -> u8;

    /// The fold for a vcp.
    pub fn jamfell_registry_incept(
        attempt: *const u8,
        attempt_size: usize,
        next: *mut u8,
        next_size: usize,
        report: *mut [u8; REPORT_BYTES],
    ) -> u8;

    /// The fold for a vrt.
    pub fn jamfell_registry_ingest(
        state: *const u8,
        state_size: usize,
        attempt: *const u8,
        attempt_size: usize,
        next: *mut u8,
        next_size: usize,
        report: *mut [u8; REPORT_BYTES],
    ) -> u8;

    /// The fold for an iss or bis.
    pub fn jamfell_credential_incept(
        registry: *const u8,
        registry_size: usize,
        attempt: *const u8,
        attempt_size: usize,
        next: *mut u8,
        next_size: usize,
        report: *mut [u8; REPORT_BYTES],
    ) -> u8;

    /// The fold for a rev or brv.
    pub fn jamfell_credential_ingest(
        registry: *const u8,
        registry_size: usize,
        credential: *const u8,
        credential_size: usize,
        attempt: *const u8,
        attempt_size: usize,
        next: *mut u8,
        next_size: usize,
        report: *mut [u8; REPORT_BYTES],
    ) -> u8;

    /// Whether bytes are an attempt, and of which kind.
    pub fn jamfell_decode(attempt: *const u8, attempt_size: usize, report: *mut [u8; REPORT_BYTES]) -> u8;

    /// Whether a credential stands.
    pub fn jamfell_status(input: *const u8, input_size: usize, report: *mut [u8; REPORT_BYTES]) -> u8;

    /// Whether a toad fits a number of backers.
    pub fn jamfell_exact(toad: u32, backers: usize, report: *mut [u8; REPORT_BYTES]) -> u8;

    /// The toad that suffices for a number of backers.
    pub fn jamfell_ample(backers: usize, report: *mut [u8; REPORT_BYTES]) -> u8;
}
