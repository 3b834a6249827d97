//! The independent planner's calls: one says beforehand how long the list may be, one lists the pairs, one chooses a plan by a wished arrival.

use crate::admission::admit;
use crate::plan::{time_numbers, times_in, Entry, Listing, Pair, Plan, NUMBERS_A_TRAIN};
use crate::refusal::*;
use crate::search::search;
use crate::sheet::Sheet;

/// How many pairs were listed and how many rounds were made.
#[derive(Clone, Copy, Debug, PartialEq, Eq)]
pub struct Counts {
    pub pairs: usize,
    pub rounds: usize,
}

/// No search of the sheet lists more pairs than this, nor makes more rounds; known before any round is made.
pub fn bound(sheet: &Sheet) -> Result<usize, Refusal> {
    admit(sheet)?;
    Ok(figure(sheet))
}

/// That figure, of any sheet: 1 and, for each train but the last, the places up to it, or the orders if these are fewer.
pub fn figure(sheet: &Sheet) -> usize {
    let (n, q) = sheet.size();
    1 + (1..q).map(|i| n.min(sheet.places(i))).sum::<usize>()
}

/// Lists the pairs in the first elements of a lent area; nothing is written where the call refuses.
pub fn list_in(sheet: &Sheet, pairs: &mut [Pair]) -> Result<Counts, Refusal> {
    admit(sheet)?;
    holds_pairs(sheet, pairs.len())?;
    let listing = search(sheet)?.listing();
    put_first(&listing.pairs, pairs);
    Ok(Counts { pairs: listing.pairs.len(), rounds: listing.rounds })
}

/// Puts the chosen plan in the first elements of the lent areas, and gives its pair; nothing is written where the call refuses. The area of
/// times has three numbers a train: departure, arrival, window.
pub fn choose_in(sheet: &Sheet, wish: u32, train_of_order: &mut [u8], times: &mut [u32]) -> Result<Pair, Refusal> {
    admit(sheet)?;
    holds_plan(sheet, train_of_order.len(), times.len())?;
    let recorded = search(sheet)?;
    let Entry { pair, plan } = recorded.chosen(wish)?;
    put_first(&plan.train_of_order, train_of_order);
    put_first(&time_numbers(&plan.times), times);
    Ok(*pair)
}

/// Test 10 of the pairs.
pub fn holds_pairs(sheet: &Sheet, pairs: usize) -> Result<(), Refusal> {
    if pairs < figure(sheet) {
        return Err(Refusal::of_all(AREA_TOO_SHORT));
    }
    Ok(())
}

/// Test 10 of a plan.
pub fn holds_plan(sheet: &Sheet, train_of_order: usize, times: usize) -> Result<(), Refusal> {
    let (n, q) = sheet.size();
    if train_of_order < n || times < NUMBERS_A_TRAIN * q {
        return Err(Refusal::of_all(AREA_TOO_SHORT));
    }
    Ok(())
}

/// Writes the first elements of a lent area.
pub fn put_first<T: Copy>(elements: &[T], area: &mut [T]) {
    area[..elements.len()].copy_from_slice(elements);
}

/// Lists with an area of its own, which is as long as the list may be.
pub fn list(sheet: &Sheet) -> Result<Listing, Refusal> {
    let mut pairs = vec![Pair::default(); bound(sheet)?];
    let counts = list_in(sheet, &mut pairs)?;
    pairs.truncate(counts.pairs);
    Ok(Listing { pairs, rounds: counts.rounds })
}

/// Chooses with areas of its own, which a sheet beyond the limits does not get.
pub fn choose(sheet: &Sheet, wish: u32) -> Result<Entry, Refusal> {
    admit(sheet)?;
    let (n, q) = sheet.size();
    let (mut train_of_order, mut times) = (vec![0; n], vec![0; NUMBERS_A_TRAIN * q]);
    let pair = choose_in(sheet, wish, &mut train_of_order, &mut times)?;
    Ok(Entry { pair, plan: Plan { train_of_order, times: times_in(&times) } })
}
