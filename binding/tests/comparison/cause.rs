//! What an answer of the independent planner is in the product's numbers.

use binding::calls::Cause;
use native::refusal::*;

/// 0 and 0 where nothing is refused.
pub fn cause_of<T>(answer: &Result<T, Refusal>) -> Cause {
    match answer {
        Ok(_) => Cause { number: 0, returned: 0 },
        Err(Refusal { number, returned }) => Cause { number: *number, returned: *returned },
    }
}

/// Given after 10: by the rounds, by the wish, by a plan that is checked, and by trains that have gone.
const AFTER_AREAS: [usize; 5] = [NO_SCHEDULE, WISH_TOO_EARLY, WRONG_ROWS, RULE_BROKEN, WRONG_GONE_PART];

/// The refusal if a lent area is too short: 10 comes after the refusals of the sheet.
pub fn if_short<T>(answer: &Result<T, Refusal>) -> Refusal {
    match answer {
        Err(refusal) if !AFTER_AREAS.contains(&refusal.number) => *refusal,
        _ => Refusal::of_all(AREA_TOO_SHORT),
    }
}
