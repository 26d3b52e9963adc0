//! How many receipts an event needs (docs/RULES.md, "Thresholds").
use crate::refusal::Refused;
use crate::report::answer;
use crate::sys;

/// Whether a toad fits a number of backers: 0 with none, else from 1 to their number.
///
/// ```
/// assert!(jamfell::exact(16, 16).is_ok());
/// assert_eq!(jamfell::exact(0, 1).unwrap_err().refusal, jamfell::Refusal::BackerThreshold);
/// ```
pub fn exact(toad: u32, backers: usize) -> Result<(), Refused> {
    // SAFETY: the report is lent for the call.
    answer(|report| unsafe { sys::jamfell_exact(toad, backers, report) })?;
    Ok(())
}

/// The toad that suffices for a number of backers, though some of them fail or lie.
///
/// ```
/// assert_eq!(jamfell::ample(4), Ok(3));
/// ```
pub fn ample(backers: usize) -> Result<u32, Refused> {
    // SAFETY: the report is lent for the call.
    let report = answer(|report| unsafe { sys::jamfell_ample(backers, report) })?;
    Ok(report.toad(0))
}
