//! Sheets whose list is filled: every round lists a further pair, until there are as many as was said beforehand.

use native::full_list::full_list;
use native::planner::{bound, list};
use native::rng::Rng;
use native::sheet::Sheet;

/// The most places of a train, and the most trains.
const MOST: u32 = 8;

/// Full, or with places to spare.
pub fn filled(rng: &mut Rng) -> Sheet {
    let (places, trains) = (rng.within(1, MOST), rng.within(1, MOST));
    let all = places * trains;
    let n = if rng.one_in(2) { all } else { rng.within(1, all) };
    let sheet = full_list(rng, n, places, trains);
    assert_eq!(list(&sheet).map(|listing| listing.pairs.len()), bound(&sheet), "{sheet:?}");
    sheet
}
