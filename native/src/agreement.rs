//! Whether an implementation agrees with the listing of every loading.

use crate::booking::is_booked;
use crate::gone::Gone;
use crate::listing::Seen;
use crate::plan::{Entry, Listing, Pair};
use crate::print::Implementation;
use crate::refusal::*;
use crate::schedule::pair_of;
use crate::sheet::Sheet;
use crate::wishes::wishes;

/// It does in listing, and in choosing by each wish around a pair of the front.
pub fn agrees(implementation: &Implementation, sheet: &Sheet, seen: &Seen) -> bool {
    let front = seen.front();
    let listed = (implementation.list)(sheet);
    let chooses = |&wish: &u32| is_best((implementation.choose)(sheet, wish), sheet, seen, wish);
    is_front(implementation, sheet, listed, &front) && wishes(&front).iter().all(chooses)
}

/// The same behind gone trains, of the loadings that begin with them. Each chosen plan begins with them too, and its empty trains do not wait needlessly.
pub fn agrees_anew(implementation: &Implementation, sheet: &Sheet, gone: &Gone, seen: &Seen) -> bool {
    let front = seen.front();
    let listed = (implementation.relist)(sheet, gone);
    let chooses = |&wish: &u32| {
        let chosen = (implementation.rechoose)(sheet, gone, wish);
        let begins = |entry: &Entry| gone.begins(&entry.plan) && gone.empty_trains_hurry(sheet, &entry.plan);
        chosen.iter().all(begins) && is_best(chosen, sheet, seen, wish)
    };
    is_front(implementation, sheet, listed, &front) && wishes(&front).iter().all(chooses)
}

/// The listed pairs are the front, and neither they nor the rounds are more than was said beforehand; refused with 8 where there is no schedule.
fn is_front(implementation: &Implementation, sheet: &Sheet, listed: Result<Listing, Refusal>, front: &[Pair]) -> bool {
    let within = |count: usize| (implementation.bound)(sheet).is_ok_and(|most| count <= most);
    match listed {
        Ok(Listing { pairs, rounds }) => !front.is_empty() && pairs == front && within(pairs.len()) && within(rounds),
        Err(refusal) => front.is_empty() && refusal == Refusal::of_all(NO_SCHEDULE),
    }
}

/// The chosen plan is a schedule with the chosen pair and with its departures' windows, and none in time has a smaller worst lateness; refused
/// with 8 where there is no schedule, and with 11 where there is one but none in time.
fn is_best(chosen: Result<Entry, Refusal>, sheet: &Sheet, seen: &Seen, wish: u32) -> bool {
    match (chosen, seen.best_by(wish)) {
        (Ok(chosen), Some(best)) => {
            chosen.pair == best && pair_of(sheet, &chosen.plan) == Some(best) && is_booked(sheet, &chosen.plan.times)
        }
        (Err(refusal), None) => {
            let number = if seen.front().is_empty() { NO_SCHEDULE } else { WISH_TOO_EARLY };
            refusal == Refusal::of_all(number)
        }
        _ => false,
    }
}
