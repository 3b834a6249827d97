//! Gone parts of stored sheets, each with its answer, checked by hand: what both packages must answer.

use crate::gone::Gone;
use crate::gone_planned::planned_parts;
use crate::gone_refused::refused_parts;
use crate::refusal::Refusal;
use crate::search::Recorded;

// The numbers of the sheets.
pub const CAME_IN: u32 = 790;
pub const SHORT_RUN: u32 = 791;
pub const LONG_RUN: u32 = 792;
pub const LAST_ROUND: u32 = 793;
pub const EMPTY_BEHIND: u32 = 794;
pub const LATEST: u32 = 795;

/// A gone part of a stored sheet.
pub struct StoredGone {
    /// The sheet's number.
    pub sheet: u32,
    pub gone: Gone,
    /// Every listed pair with its plan, and the count of rounds; or the refusal.
    pub answer: Result<Recorded, Refusal>,
    /// What it shows.
    pub shows: &'static str,
}

pub fn stored_gone_parts() -> Vec<StoredGone> {
    planned_parts().into_iter().chain(refused_parts()).collect()
}
