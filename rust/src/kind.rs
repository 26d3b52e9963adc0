//! Whether bytes are an attempt, and of which kind: for a host that asks before it sends or keeps them.
use crate::refusal::Refused;
use crate::report::{answer, Report};
use crate::sys;

/// The kind of an attempt's event.
#[derive(Debug, Clone, Copy, PartialEq, Eq)]
pub enum Kind {
    /// vcp.
    RegistryInception,
    /// vrt.
    RegistryRotation,
    /// iss.
    Issue,
    /// rev.
    Revoke,
    /// bis.
    BackedIssue,
    /// brv.
    BackedRevoke,
}

impl Kind {
    fn read(report: &Report) -> Kind {
        match report.value(0) {
            1 => Kind::RegistryInception,
            2 => Kind::RegistryRotation,
            3 => Kind::Issue,
            4 => Kind::Revoke,
            5 => Kind::BackedIssue,
            6 => Kind::BackedRevoke,
            other => report.stranger("a kind", other),
        }
    }
}

/// The kind of an attempt. The one refusal is [`Malformed`](crate::Refusal::Malformed): the bytes break the layout or a limit, or go
/// on behind the last section. No other rule is looked at.
///
/// ```
/// use jamfell::attempt::{decode, Attempt, Kind, TelEvent};
/// use jamfell::{Refusal, Said};
///
/// # fn main() -> Result<(), Box<dyn std::error::Error>> {
/// let [said, credential, registry] = [1, 2, 3].map(|n| Said::new(b'E', [n; 32]).unwrap());
/// let mut bytes = Attempt::new(TelEvent::Issue { said, credential, registry }).to_bytes()?;
/// assert_eq!(decode(&bytes), Ok(Kind::Issue));
/// bytes.push(0);
/// assert_eq!(decode(&bytes).unwrap_err().refusal, Refusal::Malformed);
/// # Ok(())
/// # }
/// ```
pub fn decode(attempt: &[u8]) -> Result<Kind, Refused> {
    // SAFETY: the slice and the report are lent for the call, and do not overlap.
    let report = answer(|report| unsafe { sys::jamfell_decode(attempt.as_ptr(), attempt.len(), report) })?;
    Ok(Kind::read(&report))
}
