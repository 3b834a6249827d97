//! Gone parts of stored sheets behind which there is a plan. Order 1 is A, order 2 B, and so on; but on sheet 794 order 2 is C.

use crate::departed::gone;
use crate::gone::Gone;
use crate::plan::{times_in, Entry, Pair, Plan, NUMBERS_A_TRAIN};
use crate::search::Recorded;
use crate::stored_gone::*;

/// Last arrival and worst lateness, the train of each order, and departure, arrival and window of each train.
type Listed<'a> = ((u32, i64), &'a [u8], &'a [[u32; NUMBERS_A_TRAIN]]);

fn planned(sheet: u32, shows: &'static str, gone: Gone, listed: &[Listed], rounds: usize) -> StoredGone {
    let entry = |&((arrival, lateness), trains, times): &Listed| Entry {
        pair: Pair { arrival, lateness },
        plan: Plan { train_of_order: trains.to_vec(), times: times_in(times.as_flattened()) },
    };
    StoredGone { sheet, gone, answer: Ok(Recorded { entries: listed.iter().map(entry).collect(), rounds }), shows }
}

pub(crate) fn planned_parts() -> Vec<StoredGone> {
    let mut all = Vec::from(came_in());
    all.extend(short_run());
    all.extend(long_run());
    all.extend(last_round());
    all.extend(empty_behind());
    all.extend(latest());
    all
}

/// What examples/replan_a.c shows, and what follows it.
fn came_in() -> [StoredGone; 2] {
    // With C, train 2 leaves at 90, and D, on train 3, is 5 × (170 − 130) late; with D, at 95, and B on it is 3 × (115 − 60) late.
    let first: Listed = ((170, 200), &[1, 2, 2, 3], &[[0, 30, 1], [90, 110, 1], [150, 170, 2]]);
    let second: Listed = ((175, 165), &[1, 2, 3, 2], &[[0, 30, 1], [95, 115, 1], [155, 175, 2]]);
    let both = gone(95, &[0, 95], &[(4, 2), (1, 1), (2, 2)]);
    [
        planned(CAME_IN, "D came in", gone(70, &[0], &[(1, 1)]), &[first, second], 2),
        planned(CAME_IN, "train 2 has gone as planned, rows in any order", both, &[second], 1),
    ]
}

/// Train 1 left at 20 and is there at 25; a train that leaves 10 behind it, at 30, is there at 50.
fn short_run() -> [StoredGone; 4] {
    // C on train 2 is 2 × (50 − 30) late, on train 3 2 × (60 − 30); B on train 3 is 60 − 20 late.
    let behind: Listed = ((60, 40), &[1, 3, 2], &[[20, 25, 1], [30, 50, 1], [40, 60, 1]]);
    let without_a: Listed = ((60, 60), &[2, 3, 3], &[[20, 25, 1], [30, 50, 1], [40, 60, 1]]);
    let at_90: Listed = ((120, 160), &[1, 3, 2], &[[20, 25, 1], [90, 110, 1], [100, 120, 1]]);
    let at_100: Listed = ((105, 85), &[1, 3, 2], &[[20, 25, 1], [30, 50, 1], [100, 105, 1]]);
    let both = gone(100, &[20, 30], &[(1, 1), (3, 2)]);
    [
        planned(SHORT_RUN, "a gap behind; a departure at the minute is good", gone(20, &[20], &[(1, 1)]), &[behind], 2),
        planned(SHORT_RUN, "gone without an order; no place to spare", gone(20, &[20], &[]), &[without_a], 1),
        planned(SHORT_RUN, "train 3 at the last minute of the window", gone(90, &[20], &[(1, 1)]), &[at_90], 2),
        planned(SHORT_RUN, "train 3 at the minute, the last of the window", both, &[at_100], 1),
    ]
}

/// Train 1 left at 20 and is there at 70, so the others are there at 80 and 90, unless train 2 leaves behind 75.
fn long_run() -> [StoredGone; 2] {
    // C on train 2 is 2 × (80 − 30) late; A 3 × (70 − 40).
    let behind: Listed = ((90, 100), &[1, 3, 2], &[[20, 70, 1], [30, 80, 1], [40, 90, 1]]);
    let at_76: Listed = ((91, 102), &[1, 3, 2], &[[20, 70, 1], [76, 81, 1], [86, 91, 1]]);
    [
        planned(LONG_RUN, "an arrival behind", gone(20, &[20], &[(1, 1)]), &[behind], 2),
        planned(LONG_RUN, "the minute decides again", gone(76, &[20], &[(1, 1)]), &[at_76], 2),
    ]
}

/// At minute 21 C's lateness is -2 on train 3 and -6 on train 2, at minute 26 it is 0 on train 3; A's is -3 if train 1 left at 18, -2 at 19, -1 at 20.
fn last_round() -> [StoredGone; 4] {
    let at = |minute: u32, departure: u32| gone(minute, &[departure], &[(1, 1)]);
    let b_on_2: Listed = ((36, -2), &[1, 2, 3, 3], &[[18, 26, 1], [25, 32, 2], [30, 36, 2]]);
    let c_on_2: Listed = ((38, -3), &[1, 3, 2, 3], &[[18, 26, 1], [27, 34, 2], [31, 38, 2]]);
    let b_at_26: Listed = ((37, 0), &[1, 2, 3, 3], &[[18, 26, 1], [26, 33, 2], [30, 37, 2]]);
    let a_at_19: Listed = ((36, -2), &[1, 2, 3, 3], &[[19, 27, 1], [25, 32, 2], [30, 36, 2]]);
    let a_at_20: Listed = ((36, -1), &[1, 2, 3, 3], &[[20, 28, 1], [25, 32, 2], [30, 36, 2]]);
    [
        planned(LAST_ROUND, "A's lateness ends round 2", at(21, 18), &[b_on_2, c_on_2], 2),
        planned(LAST_ROUND, "train 2 waits for the minute", at(26, 18), &[b_at_26, c_on_2], 2),
        planned(LAST_ROUND, "A's lateness and C's end round 1", at(21, 19), &[a_at_19], 1),
        planned(LAST_ROUND, "A's lateness ends round 1", at(21, 20), &[a_at_20], 1),
    ]
}

/// Of the first pair's plan train 2 is empty, of the second one's train 3.
fn empty_behind() -> [StoredGone; 4] {
    let at_25: Listed = ((36, -2), &[1, 3], &[[18, 26, 1], [25, 32, 2], [29, 36, 2]]);
    let at_26: Listed = ((37, 0), &[1, 3], &[[18, 26, 1], [26, 33, 2], [30, 37, 2]]);
    let c_on_2: Listed = ((38, -3), &[1, 2], &[[18, 26, 1], [27, 34, 2], [31, 38, 2]]);
    let ordinary: Listed = ((31, -4), &[2, 3], &[[0, 8, 1], [18, 25, 1], [27, 31, 2]]);
    let both = gone(27, &[18, 27], &[(1, 1), (2, 2)]);
    [
        planned(EMPTY_BEHIND, "an empty train, gap, window", gone(18, &[18], &[(1, 1)]), &[at_25, c_on_2], 2),
        planned(EMPTY_BEHIND, "an empty train waits for the minute", gone(26, &[18], &[(1, 1)]), &[at_26, c_on_2], 2),
        planned(EMPTY_BEHIND, "no order left", both, &[c_on_2], 1),
        planned(EMPTY_BEHIND, "the ordinary plan's empty train has gone", gone(0, &[0], &[]), &[ordinary], 2),
    ]
}

/// A, on a train that left two minutes late, is 5 × 3 late; no other order is later than 2 × 4.
fn latest() -> [StoredGone; 1] {
    let a_late: Listed = ((6, 15), &[1, 3, 2], &[[2, 3, 1], [3, 4, 1], [5, 6, 1]]);
    [planned(LATEST, "the worst lateness is A's", gone(3, &[2], &[(1, 1)]), &[a_late], 1)]
}
