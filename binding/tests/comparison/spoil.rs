//! Changes of a sheet in memory after which it may be refused.

use native::limits::*;
use native::rng::Rng;
use native::sheet::{Orders, Paths, Sheet, Timetable, Windows};

/// Values at or beside an end of some range.
#[rustfmt::skip]
const EDGES: [u32; 17] = [
    0, 1, 2, MOST_CAPACITY - 1, MOST_CAPACITY, MOST_CAPACITY + 1, MOST_WEIGHT, MOST_WEIGHT + 1, MOST_GAP, MOST_GAP + 1, MOST_RUNNING,
    MOST_RUNNING + 1, LAST_INSTANT, LAST_INSTANT + 1, LAST_ARRIVAL, LAST_ARRIVAL + 1, u32::MAX,
];

fn set_one(rng: &mut Rng, column: &mut [u32]) {
    if !column.is_empty() {
        let at = rng.index(column.len());
        column[at] = rng.pick(&EDGES);
    }
}

/// Columns of one kind get one row more or fewer, none, or as many as the limit and one more.
fn resize(rng: &mut Rng, columns: &mut [&mut Vec<u32>], most: usize) {
    let rows = columns[0].len();
    let rows = rng.pick(&[0, rows.saturating_sub(1), rows + 1, rows + 1, most, most + 1]);
    columns.iter_mut().for_each(|column| column.resize(rows, 1));
}

/// Moves capacities by one, here and there, until they add up to `places`. Gives whether trains can have so many.
pub fn set_places(rng: &mut Rng, capacity: &mut [u32], places: u32) -> bool {
    let q = capacity.len() as u32;
    if q == 0 || !(q..=MOST_CAPACITY * q).contains(&places) {
        return false;
    }
    capacity.iter_mut().for_each(|k| *k = (*k).clamp(1, MOST_CAPACITY));
    let mut sum: u32 = capacity.iter().sum();
    while sum != places {
        let k = &mut capacity[rng.index(q as usize)];
        let moved = if sum < places { *k + 1 } else { *k - 1 };
        if CAPACITY.contains(&moved) {
            (sum, *k) = (sum + moved - *k, moved);
        }
    }
    true
}

pub fn spoil(rng: &mut Rng, sheet: &mut Sheet) {
    match rng.index(6) {
        0 | 1 => spoil_orders(rng, &mut sheet.orders),
        2 => spoil_places(rng, sheet),
        _ => match &mut sheet.paths {
            Paths::Windows(windows) => spoil_windows(rng, windows, &mut sheet.capacity),
            Paths::Timetable(timetable) => spoil_timetable(rng, timetable, &mut sheet.capacity),
        },
    }
}

/// One place too few, as many as orders, or one to spare.
fn spoil_places(rng: &mut Rng, Sheet { capacity, orders, .. }: &mut Sheet) {
    let places = (orders.len() as u32 + rng.within(0, 2)).saturating_sub(1);
    set_places(rng, capacity, places);
}

fn spoil_orders(rng: &mut Rng, Orders { release, due, weight }: &mut Orders) {
    match rng.index(4) {
        0 => resize(rng, &mut [release, due, weight], MOST_ORDERS),
        1 => set_one(rng, release),
        2 => set_one(rng, due),
        _ => set_one(rng, weight),
    }
}

fn spoil_windows(rng: &mut Rng, Windows { gap, from, to, running }: &mut Windows, capacity: &mut Vec<u32>) {
    match rng.index(7) {
        0 => *gap = rng.pick(&EDGES),
        1 => set_one(rng, from),
        2 => set_one(rng, to),
        3 => set_one(rng, capacity),
        4 => set_one(rng, running),
        5 => resize(rng, &mut [from, to], MOST_WINDOWS),
        _ => resize(rng, &mut [capacity, running], MOST_TRAINS),
    }
}

fn spoil_timetable(rng: &mut Rng, Timetable { departure, arrival }: &mut Timetable, capacity: &mut Vec<u32>) {
    match rng.index(4) {
        0 => set_one(rng, capacity),
        1 => set_one(rng, departure),
        2 => set_one(rng, arrival),
        _ => resize(rng, &mut [capacity, departure, arrival], MOST_TRAINS),
    }
}
