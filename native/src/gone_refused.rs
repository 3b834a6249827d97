//! Gone parts of stored sheets that are refused: with 8 where no schedule begins so, with 21 for each cause by itself.

use crate::departed::gone;
use crate::gone::Gone;
use crate::refusal::*;
use crate::stored_gone::*;

/// A sheet's number, why it is refused, and the gone part.
type Refused = (u32, &'static str, Gone);

pub(crate) fn refused_parts() -> Vec<StoredGone> {
    let with = |number: usize| {
        move |(sheet, shows, gone): Refused| StoredGone { sheet, gone, answer: Err(Refusal::of_all(number)), shows }
    };
    let wrong = rows().into_iter().chain(rules()).map(with(WRONG_GONE_PART));
    no_schedule().into_iter().map(with(NO_SCHEDULE)).chain(wrong).collect()
}

fn no_schedule() -> [Refused; 5] {
    let both = gone(101, &[20, 30], &[(1, 1), (3, 2)]);
    [
        (LATEST, "three orders left, two places", gone(3, &[2], &[])),
        (SHORT_RUN, "no window for train 3", gone(91, &[20], &[(1, 1)])),
        (SHORT_RUN, "the minute is behind the last window", both),
        (CAME_IN, "train 2 in window 2, no window for train 3", gone(101, &[0], &[(1, 1)])),
        (CAME_IN, "the last minute of window 1, none gone", gone(100, &[], &[])),
    ]
}

/// An order met twice or not on the sheet, or a train not among the gone. On sheet 794 train 1 has two places.
fn rows() -> [Refused; 7] {
    let at_18 = |rows: &[(u32, u32)]| gone(26, &[18], rows);
    [
        (EMPTY_BEHIND, "A twice", at_18(&[(1, 1), (1, 1)])),
        (EMPTY_BEHIND, "A on both gone trains", gone(27, &[18, 27], &[(1, 1), (1, 2)])),
        (EMPTY_BEHIND, "no order 0", at_18(&[(1, 1), (0, 1)])),
        (EMPTY_BEHIND, "no order 3", at_18(&[(1, 1), (3, 1)])),
        (EMPTY_BEHIND, "no train 0", at_18(&[(1, 0)])),
        (EMPTY_BEHIND, "train 2 has not gone", at_18(&[(1, 2)])),
        (SHORT_RUN, "A twice, and no schedule: 21 before 8", gone(101, &[20, 30], &[(1, 1), (1, 2)])),
    ]
}

/// Another rule of the model broken, a departure after the minute, or no train remains.
fn rules() -> [Refused; 8] {
    let three = gone(40, &[20, 30, 40], &[(1, 1), (3, 2), (2, 3)]);
    [
        (SHORT_RUN, "two orders on a train with one place", gone(20, &[20], &[(1, 1), (2, 1)])),
        (LAST_ROUND, "A is released at 18", gone(21, &[17], &[(1, 1)])),
        (LAST_ROUND, "between windows 1 and 2", gone(21, &[21], &[(1, 1)])),
        (LAST_ROUND, "behind the last window", gone(61, &[61], &[(1, 1)])),
        (SHORT_RUN, "train 2 less than the gap behind", gone(29, &[20, 29], &[(1, 1)])),
        (SHORT_RUN, "train 1 left a minute later", gone(19, &[20], &[(1, 1)])),
        (SHORT_RUN, "train 2 left a minute later", gone(29, &[20, 30], &[(1, 1)])),
        (SHORT_RUN, "no train remains", three),
    ]
}
