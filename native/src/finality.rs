//! What may happen to a list that was read while the search runs.

use crate::plan::Pair;

/// A list that is read later has every pair of the one read before, the last of which may be replaced.
pub fn is_later(read: &[Pair], later: &[Pair]) -> bool {
    let Some((last, before)) = read.split_last() else { return true };
    let at = before.len();
    later.starts_with(before) && later.get(at).is_some_and(|pair| pair == last || replaces(pair, last))
}

/// By one with the same arrival and a smaller lateness.
fn replaces(by: &Pair, last: &Pair) -> bool {
    by.arrival == last.arrival && by.lateness < last.lateness
}
