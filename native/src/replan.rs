//! The independent planner's calls for replanning, from document 02's request 13: one lists the pairs, one chooses a plan by a wished arrival. What is left is
//! planned as a sheet of its own, behind the trains that have gone.

use crate::admission::admit;
use crate::gone::{Gone, Left};
use crate::plan::{time_numbers, times_in, Entry, Listing, Pair, Plan, NUMBERS_A_TRAIN};
use crate::planner::{bound, holds_pairs, holds_plan, put_first, Counts};
use crate::refusal::*;
use crate::search::{search_behind, Recorded};
use crate::sheet::Sheet;

/// Lists the pairs in the first elements of a lent area; nothing is written where the call refuses. The area is tested as for the whole sheet.
pub fn relist_in(sheet: &Sheet, gone: &Gone, pairs: &mut [Pair]) -> Result<Counts, Refusal> {
    admit(sheet)?;
    holds_pairs(sheet, pairs.len())?;
    let listing = search_anew(sheet, gone)?.listing();
    put_first(&listing.pairs, pairs);
    Ok(Counts { pairs: listing.pairs.len(), rounds: listing.rounds })
}

/// Puts the chosen plan, of the gone trains too, in the first elements of the lent areas, and gives its pair; nothing is written where the call refuses.
pub fn rechoose_in(
    sheet: &Sheet,
    gone: &Gone,
    wish: u32,
    train_of_order: &mut [u8],
    times: &mut [u32],
) -> Result<Pair, Refusal> {
    admit(sheet)?;
    holds_plan(sheet, train_of_order.len(), times.len())?;
    let recorded = search_anew(sheet, gone)?;
    let Entry { pair, plan } = recorded.chosen(wish)?;
    put_first(&plan.train_of_order, train_of_order);
    put_first(&time_numbers(&plan.times), times);
    Ok(*pair)
}

/// Every round on an admitted sheet, with the whole plan of each listed pair: refused with 21 for the gone part, then with 8 where nothing follows it.
pub fn search_anew(sheet: &Sheet, gone: &Gone) -> Result<Recorded, Refusal> {
    let left = Left::of(sheet, gone)?;
    if left.sheet.spare_places().is_none() {
        return Err(Refusal::of_all(NO_SCHEDULE));
    }
    let mut recorded = search_behind(&left.sheet, left.ahead)?;
    recorded.entries.iter_mut().for_each(|entry| entry.plan = left.whole(&entry.plan));
    Ok(recorded)
}

/// Lists with an area of its own, which is as long as the list may be.
pub fn relist(sheet: &Sheet, gone: &Gone) -> Result<Listing, Refusal> {
    let mut pairs = vec![Pair::default(); bound(sheet)?];
    let counts = relist_in(sheet, gone, &mut pairs)?;
    pairs.truncate(counts.pairs);
    Ok(Listing { pairs, rounds: counts.rounds })
}

/// Chooses with areas of its own, which a sheet beyond the limits does not get.
pub fn rechoose(sheet: &Sheet, gone: &Gone, wish: u32) -> Result<Entry, Refusal> {
    admit(sheet)?;
    let (n, q) = sheet.size();
    let (mut train_of_order, mut times) = (vec![0; n], vec![0; NUMBERS_A_TRAIN * q]);
    let pair = rechoose_in(sheet, gone, wish, &mut train_of_order, &mut times)?;
    Ok(Entry { pair, plan: Plan { train_of_order, times: times_in(&times) } })
}
