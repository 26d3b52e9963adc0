//! How values are laid out in bytes (docs/RULES.md, "Bytes").
use crate::primitive::PRIMITIVE_BYTES;
use std::error::Error;
use std::fmt;

/// More elements than a section takes.
#[derive(Debug, Clone, Copy, PartialEq, Eq)]
pub struct TooMany {
    /// What there is too much of.
    pub what: &'static str,
    /// How many there are.
    pub count: usize,
    /// How many are allowed.
    pub limit: usize,
}

impl fmt::Display for TooMany {
    fn fmt(&self, f: &mut fmt::Formatter<'_>) -> fmt::Result {
        write!(f, "{} {}, and at most {} are allowed", self.count, self.what, self.limit)
    }
}

impl Error for TooMany {}

/// A section: a count in one byte, and the elements behind it.
pub(crate) fn section<T>(
    out: &mut Vec<u8>,
    what: &'static str,
    limit: u8,
    elements: &[T],
    mut put: impl FnMut(&mut Vec<u8>, &T) -> Result<(), TooMany>,
) -> Result<(), TooMany> {
    let count = elements.len();
    match u8::try_from(count) {
        Ok(few) if few <= limit => out.push(few),
        _ => return Err(TooMany { what, count, limit: limit.into() }),
    }
    elements.iter().try_for_each(|element| put(out, element))
}

/// A section of 0 or 1 element.
pub(crate) fn optional<T>(
    out: &mut Vec<u8>,
    element: Option<&T>,
    put: impl FnOnce(&mut Vec<u8>, &T) -> Result<(), TooMany>,
) -> Result<(), TooMany> {
    out.push(u8::from(element.is_some()));
    element.map_or(Ok(()), |element| put(out, element))
}

/// Bytes that are read from the front.
pub(crate) struct Reader<'a>(pub(crate) &'a [u8]);

impl Reader<'_> {
    pub(crate) fn take<const N: usize>(&mut self) -> Option<[u8; N]> {
        let (taken, rest) = self.0.split_first_chunk::<N>()?;
        self.0 = rest;
        Some(*taken)
    }

    pub(crate) fn primitive<P: TryFrom<[u8; PRIMITIVE_BYTES]>>(&mut self) -> Option<P> {
        P::try_from(self.take()?).ok()
    }

    pub(crate) fn sn(&mut self) -> Option<u128> {
        self.take().map(u128::from_be_bytes)
    }

    pub(crate) fn byte(&mut self) -> Option<u8> {
        self.take::<1>().map(|[byte]| byte)
    }

    /// A section of at most so many elements.
    pub(crate) fn section<T>(&mut self, limit: u8, mut read: impl FnMut(&mut Self) -> Option<T>) -> Option<Vec<T>> {
        let count = self.byte().filter(|count| *count <= limit)?;
        (0..count).map(|_| read(self)).collect()
    }
}
