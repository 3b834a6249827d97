//! The independent checking call, from document 02's request 3: whether a plan made elsewhere is a schedule, the pair that it has, and whether
//! that pair is listed.

use crate::admission::admit;
use crate::plan::{Listing, Pair};
use crate::planner::{bound, holds_pairs, list_in, Counts};
use crate::refusal::*;
use crate::sheet::{Paths, Sheet, Windows};

/// An order and its train, numbered from 1 as on the sheet; a row may have any numbers.
#[derive(Clone, Copy, Debug, PartialEq, Eq)]
pub struct Row {
    pub order: u32,
    pub train: u32,
}

/// A plan made elsewhere.
#[derive(Clone, Debug, Default, PartialEq, Eq)]
pub struct ForeignPlan {
    /// Train by train.
    pub departures: Vec<u32>,
    /// In any order.
    pub rows: Vec<Row>,
}

/// What is said of a schedule: its pair, whether that is listed, and the counts of the list.
#[derive(Clone, Copy, Debug, PartialEq, Eq)]
pub struct Checked {
    pub pair: Pair,
    pub listed: bool,
    pub counts: Counts,
}

/// Checks a plan, and lists the pairs in the first elements of a lent area; nothing is written where the call refuses. The list is made last.
pub fn check_in(sheet: &Sheet, plan: &ForeignPlan, pairs: &mut [Pair]) -> Result<Checked, Refusal> {
    admit(sheet)?;
    holds_pairs(sheet, pairs.len())?;
    let pair = foreign_pair(sheet, plan)?;
    let counts = list_in(sheet, pairs)?;
    Ok(Checked { pair, listed: pairs[..counts.pairs].contains(&pair), counts })
}

/// Checks with an area of its own.
pub fn check(sheet: &Sheet, plan: &ForeignPlan) -> Result<Checked, Refusal> {
    check_in(sheet, plan, &mut vec![Pair::default(); bound(sheet)?])
}

/// The same where listing's answer is known, so that no round is made.
pub fn check_by(listed: &Result<Listing, Refusal>, sheet: &Sheet, plan: &ForeignPlan) -> Result<Checked, Refusal> {
    admit(sheet)?;
    let pair = foreign_pair(sheet, plan)?;
    let Listing { pairs, rounds } = listed.as_ref().map_err(|&refusal| refusal)?;
    Ok(Checked { pair, listed: pairs.contains(&pair), counts: Counts { pairs: pairs.len(), rounds: *rounds } })
}

/// The plan's pair on an admitted sheet: refused with 12 for its rows, then with 13 where it is no schedule.
pub fn foreign_pair(sheet: &Sheet, plan: &ForeignPlan) -> Result<Pair, Refusal> {
    let loads = loads_of(sheet, plan).ok_or(Refusal::of_all(WRONG_ROWS))?;
    let departures = &plan.departures;
    if !(loads_fit(sheet, &loads, departures) && departures_fit(&sheet.paths, departures)) {
        return Err(Refusal::of_all(RULE_BROKEN));
    }
    let arrivals = arrivals_of(&sheet.paths, departures);
    let on_train = |i: usize| loads[i].iter().map(|&j| sheet.orders.lateness(j, arrivals[i])).max();
    let worst = (0..loads.len()).filter_map(on_train).max();
    Ok(Pair { arrival: *arrivals.last().expect("a train"), lateness: worst.expect("an order") })
}

/// The orders on each train, by index; none if there are too few or too many departures or rows, an order is met twice, or a number is
/// not on the sheet.
fn loads_of(sheet: &Sheet, ForeignPlan { departures, rows }: &ForeignPlan) -> Option<Vec<Vec<usize>>> {
    let (n, q) = sheet.size();
    if departures.len() != q || rows.len() != n {
        return None;
    }
    loads_in(rows, n, q)
}

/// The orders on each of q trains, by index; none if an order is met twice or is not one of n, or a train is not one of these.
pub(crate) fn loads_in(rows: &[Row], n: usize, q: usize) -> Option<Vec<Vec<usize>>> {
    let mut met = vec![false; n];
    let mut loads = vec![Vec::new(); q];
    for row in rows {
        let (j, i) = (index_of(row.order, n)?, index_of(row.train, q)?);
        if std::mem::replace(&mut met[j], true) {
            return None;
        }
        loads[i].push(j);
    }
    Some(loads)
}

/// The index of a number from 1 to `count`.
fn index_of(number: u32, count: usize) -> Option<usize> {
    let index = (number as usize).checked_sub(1)?;
    (index < count).then_some(index)
}

/// Train i carries at most k_i orders, each with release <= S_i; for the first trains of the sheet, or for all.
pub(crate) fn loads_fit(sheet: &Sheet, loads: &[Vec<usize>], departures: &[u32]) -> bool {
    let has_places = |i: usize| loads[i].len() <= sheet.capacity[i] as usize;
    let released = |i: usize| loads[i].iter().all(|&j| sheet.orders.release[j] <= departures[i]);
    (0..loads.len()).all(|i| has_places(i) && released(i))
}

/// Each S_i lies in a window, and S_i >= S_(i-1) + g; by timetable the departures are the fixed ones. The sum is taken in u64: a departure may be
/// any u32 here. For the first trains of the sheet, or for all.
pub(crate) fn departures_fit(paths: &Paths, departures: &[u32]) -> bool {
    match paths {
        Paths::Windows(Windows { gap, from, to, .. }) => {
            let open = |instant: &u32| from.iter().zip(to).any(|(from, to)| from <= instant && instant <= to);
            let gap_kept = |next: &[u32]| u64::from(next[1]) >= u64::from(next[0]) + u64::from(*gap);
            departures.iter().all(open) && departures.windows(2).all(gap_kept)
        }
        Paths::Timetable(timetable) => departures == timetable.departure,
    }
}

/// F_1 = S_1 + p_1, and F_i = max(S_i + p_i, F_(i-1) + g); by timetable the fixed ones. For the first trains of the sheet, or for all.
pub(crate) fn arrivals_of(paths: &Paths, departures: &[u32]) -> Vec<u32> {
    match paths {
        Paths::Windows(Windows { gap, running, .. }) => {
            let mut earliest = 0;
            let arrival = |(departure, running): (&u32, &u32)| {
                let arrival = (departure + running).max(earliest);
                earliest = arrival + gap;
                arrival
            };
            departures.iter().zip(running).map(arrival).collect()
        }
        Paths::Timetable(timetable) => timetable.arrival.clone(),
    }
}
