//! Which version the library is of.

use crate::{raw, Refusal, VERSION};

/// Annex 7.40: the version of the library that is linked.
pub fn version() -> u32 {
    // SAFETY: it takes nothing and gives a number (Annex 7.39 asks nothing of such a call).
    unsafe { raw::planner_version() }
}

/// Annex 7.40, 10.10: refuses a library of another version, in its planner or in its packets.
///
/// Annex 13.8: hosts of two versions part, and nothing in a planner says which version made it; one
/// of another version may have another layout. So [`Planner::open`], [`Planner::from_bytes`] and
/// [`Planner::from_raw`] ask this first: a planner exists only over a library of its version, and
/// no later call asks again. Whoever uses packets alone, as a head does, asks it once.
///
/// # Errors
///
/// [`Refusal::OtherVersion`].
///
/// [`Planner::open`]: crate::Planner::open
/// [`Planner::from_bytes`]: crate::Planner::from_bytes
/// [`Planner::from_raw`]: crate::Planner::from_raw
pub fn check_version() -> Result<(), Refusal> {
    match (version(), crate::packet::version()) {
        (VERSION, VERSION) => Ok(()),
        _ => Err(Refusal::OtherVersion),
    }
}
