//! Brute force for small sheets: every loading, the best list of pairs, the best pair in time, and every schedule; all of them, or those that begin with
//! trains which have gone.

use crate::beginning::Beginning;
use crate::gone::Gone;
use crate::limits::MOST_TRAINS;
use crate::plan::Pair;
use crate::sheet::{Orders, Paths, Sheet, Windows};
use std::collections::BTreeMap;
use std::ops::{Range, RangeInclusive};

/// For each last arrival the least worst lateness seen.
#[derive(Default)]
pub struct Seen(BTreeMap<u32, i64>);

impl Seen {
    fn pairs(&self) -> impl Iterator<Item = Pair> + '_ {
        self.0.iter().map(|(&arrival, &lateness)| Pair { arrival, lateness })
    }

    /// The pairs that no other pair beats or equals in both; none if there is no schedule.
    pub fn front(&self) -> Vec<Pair> {
        let mut front: Vec<Pair> = Vec::new();
        for pair in self.pairs() {
            if front.last().is_none_or(|last| pair.lateness < last.lateness) {
                front.push(pair);
            }
        }
        front
    }

    /// Of the pairs that are not later than the wish, the one with the least worst lateness, and of those the earliest.
    pub fn best_by(&self, wish: u32) -> Option<Pair> {
        self.pairs().filter(|pair| pair.arrival <= wish).min_by_key(|pair| (pair.lateness, pair.arrival))
    }
}

/// One number a train; behind the last train 0.
pub(crate) type Row = [u32; MOST_TRAINS];

/// All loadings with earliest departures.
pub fn seen(sheet: &Sheet) -> Seen {
    seen_behind(sheet, &Gone::default())
}

/// Those that begin with the gone trains.
pub fn seen_behind(sheet: &Sheet, gone: &Gone) -> Seen {
    let Beginning { rides, leaves } = Beginning::of(sheet, gone);
    let mut seen = Seen::default();
    each_loading(sheet, &rides, &mut |train| {
        if let Some(arrival) = earliest_arrivals(sheet, &leaves, &greatest_releases(&sheet.orders, train)) {
            see(&mut seen, sheet, train, &arrival);
        }
    });
    seen
}

/// All loadings and all departures.
pub fn seen_with_all_departures(sheet: &Sheet) -> Seen {
    seen_with_all_departures_behind(sheet, &Gone::default())
}

/// Those that begin with the gone trains.
pub fn seen_with_all_departures_behind(sheet: &Sheet, gone: &Gone) -> Seen {
    let mut seen = Seen::default();
    each_schedule(sheet, gone, &mut |_, train, arrival| see(&mut seen, sheet, train, arrival));
    seen
}

/// Every schedule, as its departures and the train (from 0) of each order, with its pair.
pub fn schedules(sheet: &Sheet) -> BTreeMap<(Vec<u32>, Vec<usize>), Pair> {
    let mut schedules = BTreeMap::new();
    each_schedule(sheet, &Gone::default(), &mut |departure, train, arrival| {
        schedules.insert((departure.to_vec(), train.to_vec()), pair_of(sheet, train, arrival));
    });
    schedules
}

/// Calls `visit` with the departures, the train (from 0) of each order and the arrivals, for every schedule that begins with the gone trains.
pub(crate) fn each_schedule(sheet: &Sheet, gone: &Gone, visit: &mut impl FnMut(&[u32], &[usize], &Row)) {
    let Beginning { rides, leaves } = Beginning::of(sheet, gone);
    each_loading(sheet, &rides, &mut |train| {
        let greatest = greatest_releases(&sheet.orders, train);
        match &sheet.paths {
            Paths::Windows(windows) => each_departure(windows, &leaves, &greatest, &mut Vec::new(), &mut |departure| {
                visit(departure, train, &arrivals(windows, departure));
            }),
            Paths::Timetable(timetable) => {
                let arrival = earliest_arrivals(sheet, &leaves, &greatest);
                arrival.iter().for_each(|arrival| visit(&timetable.departure, train, arrival));
            }
        }
    });
}

/// Calls `visit` with the train (from 0) of each order, for every loading on trains that the orders may ride; trains may have places left, or be empty.
fn each_loading(sheet: &Sheet, rides: &[Range<usize>], visit: &mut impl FnMut(&[usize])) {
    let (n, _) = sheet.size();
    assert!(sheet.spare_places().is_some(), "every order finds a place");
    load_from(0, rides, &mut vec![0; n], &mut sheet.capacity.clone(), visit);
}

/// Loads the orders from the one at index `j` on, in every way.
fn load_from(
    j: usize,
    rides: &[Range<usize>],
    train: &mut [usize],
    places: &mut [u32],
    visit: &mut impl FnMut(&[usize]),
) {
    if j == train.len() {
        return visit(train);
    }
    for i in rides[j].clone() {
        if places[i] > 0 {
            places[i] -= 1;
            train[j] = i;
            load_from(j + 1, rides, train, places, visit);
            places[i] += 1;
        }
    }
}

/// Calls `visit` with every row of permitted departures.
fn each_departure(
    windows: &Windows,
    leaves: &[RangeInclusive<u32>],
    greatest: &Row,
    row: &mut Vec<u32>,
    visit: &mut impl FnMut(&[u32]),
) {
    if row.len() == windows.running.len() {
        return visit(row);
    }
    let behind = row.last().map_or(0, |ahead| ahead + windows.gap);
    for (&from, &to) in windows.from.iter().zip(&windows.to) {
        for instant in from..=to {
            if leaves[row.len()].contains(&instant) && instant >= behind && instant >= greatest[row.len()] {
                row.push(instant);
                each_departure(windows, leaves, greatest, row, visit);
                row.pop();
            }
        }
    }
}

fn greatest_releases(orders: &Orders, train: &[usize]) -> Row {
    let mut greatest = [0; MOST_TRAINS];
    for (&i, &release) in train.iter().zip(&orders.release) {
        greatest[i] = release.max(greatest[i]);
    }
    greatest
}

/// The arrivals with earliest departures; none if a train cannot depart.
fn earliest_arrivals(sheet: &Sheet, leaves: &[RangeInclusive<u32>], greatest: &Row) -> Option<Row> {
    let q = sheet.capacity.len();
    match &sheet.paths {
        Paths::Windows(windows) => {
            let mut departure = [0; MOST_TRAINS];
            for i in 0..q {
                let behind = if i == 0 { 0 } else { departure[i - 1] + windows.gap };
                departure[i] = least_instant(windows, greatest[i].max(behind).max(*leaves[i].start()))?;
            }
            Some(arrivals(windows, &departure[..q]))
        }
        Paths::Timetable(timetable) => {
            if greatest.iter().zip(&timetable.departure).any(|(release, departure)| release > departure) {
                return None;
            }
            let mut arrival = [0; MOST_TRAINS];
            arrival[..q].copy_from_slice(&timetable.arrival);
            Some(arrival)
        }
    }
}

fn least_instant(windows: &Windows, wish: u32) -> Option<u32> {
    let open = windows.from.iter().zip(&windows.to).filter(|(_, &to)| wish <= to);
    open.map(|(&from, _)| wish.max(from)).min()
}

fn arrivals(windows: &Windows, departure: &[u32]) -> Row {
    let mut arrival = [0; MOST_TRAINS];
    for (i, instant) in departure.iter().enumerate() {
        let alone = instant + windows.running[i];
        arrival[i] = if i == 0 { alone } else { alone.max(arrival[i - 1] + windows.gap) };
    }
    arrival
}

pub(crate) fn pair_of(sheet: &Sheet, train: &[usize], arrival: &Row) -> Pair {
    let (n, q) = sheet.size();
    let worst = (0..n).map(|j| sheet.orders.lateness(j, arrival[train[j]])).max().expect("an order");
    Pair { arrival: arrival[q - 1], lateness: worst }
}

fn see(Seen(least): &mut Seen, sheet: &Sheet, train: &[usize], arrival: &Row) {
    let Pair { arrival, lateness } = pair_of(sheet, train, arrival);
    least.entry(arrival).and_modify(|least| *least = lateness.min(*least)).or_insert(lateness);
}
