//! The ledger.
use crate::primitive::Said;
use crate::refusal::Refused;
use crate::report::{answer, Report};
use crate::sys;
use std::fmt;

/// The most bytes that an image has.
pub const IMAGE_BYTES_MAX: usize = 39_956;

/// A ledger: at most 16 registries and 256 credentials, in a block of memory on the heap.
///
/// ```
/// use jamfell::{Key, Ledger, Said, Standing};
///
/// # fn main() -> Result<(), Box<dyn std::error::Error>> {
/// let mut ledger = Ledger::new();
/// // What comes from the van is bytes, and they may be any.
/// let refused = ledger.apply(b"not an attempt").unwrap_err();
/// println!("{refused}");
///
/// let key = Key { registry: Said::new(b'E', [1; 32])?, credential: Said::new(b'E', [2; 32])? };
/// assert_eq!(ledger.standing(&key)?, Standing::Unknown);
///
/// // The image is what a host keeps.
/// let image = ledger.to_image()?;
/// let kept = Ledger::from_image(&image)?;
/// assert_eq!(kept.to_image()?, image);
/// # Ok(())
/// # }
/// ```
#[derive(Clone)]
pub struct Ledger {
    block: Box<sys::Ledger>,
}

/// What names a credential in a ledger: its registry and itself.
#[derive(Debug, Clone, Copy, PartialEq, Eq, Hash)]
pub struct Key {
    /// The said of the registry.
    pub registry: Said,
    /// The said of the credential.
    pub credential: Said,
}

/// How a credential stands. A refusal is no standing, and comes as an error.
#[derive(Debug, Clone, Copy, PartialEq, Eq, Hash)]
pub enum Standing {
    /// It is issued and not revoked.
    Issued,
    /// It is revoked.
    Revoked,
    /// The ledger holds no such credential.
    Unknown,
}

impl Standing {
    fn read(report: &Report) -> Standing {
        match report.value(0) {
            1 => Standing::Issued,
            2 => Standing::Revoked,
            3 => Standing::Unknown,
            other => report.stranger("a standing", other),
        }
    }
}

impl Ledger {
    /// An empty ledger.
    pub fn new() -> Ledger {
        // SAFETY: a block holds numbers alone, so bytes that are all 0 are one.
        let mut block: Box<sys::Ledger> = unsafe { Box::new(std::mem::zeroed()) };
        // SAFETY: the block is this ledger's own.
        unsafe { sys::jamfell_empty(&mut *block) };
        Ledger { block }
    }

    /// Takes an attempt in. An accepted one changes the one registry or credential that it names, or adds it; a refused one changes
    /// nothing.
    pub fn apply(&mut self, attempt: &[u8]) -> Result<(), Refused> {
        // SAFETY: the block is this ledger's own, slice and report are lent for the call, and nothing overlaps.
        answer(|report| unsafe { sys::jamfell_apply(&mut *self.block, attempt.as_ptr(), attempt.len(), report) })?;
        Ok(())
    }

    /// How a credential stands.
    pub fn standing(&self, key: &Key) -> Result<Standing, Refused> {
        let (registry, credential) = (key.registry.as_bytes(), key.credential.as_bytes());
        // SAFETY: the block is only read, slices and report are lent for the call, and the report overlaps nothing.
        let report = answer(|report| unsafe {
            sys::jamfell_look_up(
                &*self.block,
                registry.as_ptr(),
                registry.len(),
                credential.as_ptr(),
                credential.len(),
                report,
            )
        })?;
        Ok(Standing::read(&report))
    }

    /// The image: the bytes of the whole ledger, to be kept or sent.
    pub fn to_image(&self) -> Result<Vec<u8>, Refused> {
        let mut image = vec![0; IMAGE_BYTES_MAX];
        let size = self.write_image(&mut image)?;
        image.truncate(size);
        Ok(image)
    }

    /// Writes the image to the start of a buffer, and answers how many bytes it has. The bytes behind it keep their values, and after
    /// a refusal all do.
    pub fn write_image(&self, out: &mut [u8]) -> Result<usize, Refused> {
        // SAFETY: the block is only read, buffer and report are lent for the call, and nothing overlaps.
        let report =
            answer(|report| unsafe { sys::jamfell_write_image(&*self.block, out.as_mut_ptr(), out.len(), report) })?;
        Ok(report.size(0))
    }

    /// The ledger of an image.
    pub fn from_image(image: &[u8]) -> Result<Ledger, Refused> {
        let mut ledger = Ledger::new();
        ledger.read_image(image)?;
        Ok(ledger)
    }

    /// Puts the ledger of an image in the place of this one. A refused image leaves this one as it was.
    pub fn read_image(&mut self, image: &[u8]) -> Result<(), Refused> {
        // SAFETY: as in `apply`.
        answer(|report| unsafe { sys::jamfell_read_image(&mut *self.block, image.as_ptr(), image.len(), report) })?;
        Ok(())
    }

    /// How many registries are held.
    pub fn registry_count(&self) -> usize {
        self.block.registry_count
    }

    /// How many credentials are held.
    pub fn credential_count(&self) -> usize {
        self.block.row_count
    }
}

impl Default for Ledger {
    fn default() -> Ledger {
        Ledger::new()
    }
}

impl fmt::Debug for Ledger {
    fn fmt(&self, f: &mut fmt::Formatter<'_>) -> fmt::Result {
        f.debug_struct("Ledger")
            .field("registry_count", &self.registry_count())
            .field("credential_count", &self.credential_count())
            .finish_non_exhaustive()
    }
}
