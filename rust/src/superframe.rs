//! The superframe helper.

use crate::refusal::answered;
use crate::{raw, Refusal};

/// Annex 9.1 to 9.4: the least common multiple of the periods, 1 to 5,040; 1 where there is none.
///
/// It helps to find a `frame` that all periods divide; no call asks for its answer (Annex 7.5).
///
/// # Errors
///
/// 18 if a period of the whole list is not 1 to 240; then 19 if the least common multiple is above
/// 5,040.
///
/// ```
/// assert_eq!(planner::superframe(&[5, 7, 15]), Ok(105));
/// ```
pub fn superframe(periods: &[u8]) -> Result<u32, Refusal> {
    // SAFETY: Annex 7.39: the pointer is not null, that of an empty slice neither, which points
    // nowhere and is not read; the slice's bytes can be read, and nobody writes them meanwhile.
    let packed = unsafe { raw::superframe(periods.as_ptr(), periods.len()) };
    answered(packed / 65_536)?;
    Ok(packed % 65_536)
}
