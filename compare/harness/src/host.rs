//! The calls of libhost.a on slices, each with its report as it was written.
use crate::answer::{Answer, REPORT};
use jamfell::sys;

/// The report as it was written, and the number that was returned beside it.
#[derive(Clone, Copy, PartialEq, Eq)]
pub struct Said {
    pub number: u8,
    pub report: [u8; REPORT],
}

impl Said {
    pub fn answer(&self) -> Answer {
        Answer::read(&self.report)
    }

    fn by(call: impl FnOnce(*mut [u8; REPORT]) -> u8) -> Self {
        // Whatever stands in the report before a call must not matter.
        let mut report = [0xa5; REPORT];
        let number = call(&mut report);
        Self { number, report }
    }
}

/// The size of the block, which is aligned to 8.
pub const LEDGER: usize = sys::LEDGER_BYTES;

#[repr(C, align(8))]
#[derive(Clone, PartialEq, Eq)]
pub struct Block(pub [u8; LEDGER]);

// Safety of all that follows: every pointer comes from a reference or a slice, with its length; nothing is kept by a call.
#[inline]
pub fn registry_incept(attempt: &[u8], next: &mut [u8]) -> Said {
    Said::by(|r| unsafe { sys::jamfell_registry_incept(attempt.as_ptr(), attempt.len(), next.as_mut_ptr(), next.len(), r) })
}

#[inline]
pub fn registry_ingest(state: &[u8], attempt: &[u8], next: &mut [u8]) -> Said {
    Said::by(|r| unsafe {
        sys::jamfell_registry_ingest(state.as_ptr(), state.len(), attempt.as_ptr(), attempt.len(), next.as_mut_ptr(), next.len(), r)
    })
}

#[inline]
pub fn credential_incept(registry: &[u8], attempt: &[u8], next: &mut [u8]) -> Said {
    Said::by(|r| unsafe {
        sys::jamfell_credential_incept(registry.as_ptr(), registry.len(), attempt.as_ptr(), attempt.len(), next.as_mut_ptr(), next.len(), r)
    })
}

#[inline]
pub fn credential_ingest(registry: &[u8], credential: &[u8], attempt: &[u8], next: &mut [u8]) -> Said {
    Said::by(|r| unsafe {
        sys::jamfell_credential_ingest(
            registry.as_ptr(),
            registry.len(),
            credential.as_ptr(),
            credential.len(),
            attempt.as_ptr(),
            attempt.len(),
            next.as_mut_ptr(),
            next.len(),
            r,
        )
    })
}

#[inline]
pub fn decode(attempt: &[u8]) -> Said {
    Said::by(|r| unsafe { sys::jamfell_decode(attempt.as_ptr(), attempt.len(), r) })
}

#[inline]
pub fn status(input: &[u8]) -> Said {
    Said::by(|r| unsafe { sys::jamfell_status(input.as_ptr(), input.len(), r) })
}

#[inline]
pub fn exact(toad: u32, backers: usize) -> Said {
    Said::by(|r| unsafe { sys::jamfell_exact(toad, backers, r) })
}

#[inline]
pub fn ample(backers: usize) -> Said {
    Said::by(|r| unsafe { sys::jamfell_ample(backers, r) })
}

impl Block {
    fn ledger(&self) -> *const sys::Ledger {
        self.0.as_ptr().cast()
    }

    fn ledger_mut(&mut self) -> *mut sys::Ledger {
        self.0.as_mut_ptr().cast()
    }

    pub fn empty(&mut self) {
        unsafe { sys::jamfell_empty(self.ledger_mut()) }
    }

    #[inline]
    pub fn apply(&mut self, attempt: &[u8]) -> Said {
        Said::by(|r| unsafe { sys::jamfell_apply(self.ledger_mut(), attempt.as_ptr(), attempt.len(), r) })
    }

    #[inline]
    pub fn look_up(&self, registry: &[u8], credential: &[u8]) -> Said {
        let (n, m) = (registry.len(), credential.len());
        Said::by(|r| unsafe { sys::jamfell_look_up(self.ledger(), registry.as_ptr(), n, credential.as_ptr(), m, r) })
    }

    #[inline]
    pub fn write_image(&self, out: &mut [u8]) -> Said {
        Said::by(|r| unsafe { sys::jamfell_write_image(self.ledger(), out.as_mut_ptr(), out.len(), r) })
    }

    #[inline]
    pub fn read_image(&mut self, image: &[u8]) -> Said {
        Said::by(|r| unsafe { sys::jamfell_read_image(self.ledger_mut(), image.as_ptr(), image.len(), r) })
    }
}
