//! States that are not those of a search: damaged ones, and whether a call for a round can tell.

use crate::watched::NO_STATE;
use binding::areas::SearchAreas;
use binding::calls::State;
use native::limits::{MOST_ORDERS, MOST_TRAINS};
use native::planner::{bound, figure, put_first};
use native::rng::Rng;
use native::sheet::Sheet;
use native::trace::round;
use std::fmt;

/// Whether a call takes the state for one of a search on this sheet, in areas of these lengths: the sheet and the areas pass the tests of a start, and
/// the counts are possible; while the search goes on, a further round may be made, the trains are orderly, and the latest trains leave enough places.
pub fn is_taken(state: &State, sheet: &Sheet, lengths: [usize; 3]) -> bool {
    let room = lengths.iter().zip(SearchAreas::least(sheet)).all(|(length, least)| *length >= least);
    let Ok(most) = bound(sheet) else { return false };
    if !room || state.pairs > state.rounds || state.rounds > most {
        return false;
    }
    let latest = &state.latest[..sheet.orders.len()];
    let orderly = || faults(state, sheet) == [false; FAULTS];
    state.ended != 0 || state.rounds < most && orderly() && leaves_places(latest, &sheet.capacity)
}

/// How many kinds of fault the trains of a state can have.
const FAULTS: usize = 4;

/// What is wrong with the trains of a state, so that no loading begins from them; orderly ones have none of these faults. Train 0 is none.
///
/// - A train is not on the sheet.
/// - A train has more orders than places.
/// - An order y rides an earlier train than x, may ride the train of x, and is not below x by release, then number.
/// - An order has a train and may ride a later one that has not just as many orders as places.
fn faults(state: &State, sheet: &Sheet) -> [bool; FAULTS] {
    let (n, q) = sheet.size();
    let (train, latest) = (&state.train[..n], &state.latest[..n]);
    let riders = |i: usize| train.iter().filter(|&&of_order| usize::from(of_order) == i).count();
    let places = |i: usize| sheet.capacity[i - 1] as usize;
    let could_ride = |y: usize, i: u8| 1 <= train[y] && train[y] < i && i <= latest[y];
    let is_below = |y: usize, x: usize| (sheet.orders.release[y], y) < (sheet.orders.release[x], x);
    [
        train.iter().any(|&i| usize::from(i) > q),
        (1..=q).any(|i| riders(i) > places(i)),
        (0..n).any(|x| (0..n).any(|y| could_ride(y, train[x]) && !is_below(y, x))),
        (1..=q).any(|i| riders(i) != places(i) && (0..n).any(|y| could_ride(y, i as u8))),
    ]
}

/// No order may ride a train that is not there, and no more than K_i orders must ride the first i trains.
pub fn leaves_places(latest: &[u8], capacity: &[u32]) -> bool {
    let up_to = |i: usize| latest.iter().filter(|&&last| usize::from(last) <= i).count();
    let places = |i: usize| capacity[..i].iter().sum::<u32>() as usize;
    up_to(capacity.len()) == latest.len() && (0..=capacity.len()).all(|i| up_to(i) <= places(i))
}

/// Damaged trains, in states that are taken or not for their trains alone.
#[derive(Debug, Default)]
pub struct DamagedTrains {
    /// With this fault and no other.
    faulty: [usize; FAULTS],
    orderly: usize,
    /// Orderly since no order has a train.
    none: usize,
}

impl DamagedTrains {
    /// Meets a state that was `sound` before it was damaged.
    pub fn meet(&mut self, state: &State, sound: &State, sheet: &Sheet, lengths: [usize; 3]) {
        let n = sheet.orders.len();
        let train = &state.train[..n];
        let without = State { train: NO_STATE.train, ..*state };
        if state.ended != 0 || train == &sound.train[..n] || !is_taken(&without, sheet, lengths) {
            return;
        }
        let faults = faults(state, sheet).map(usize::from);
        match faults.iter().sum() {
            0 => {
                self.orderly += 1;
                self.none += usize::from(train.iter().all(|&i| i == 0));
            }
            1 => self.faulty.iter_mut().zip(faults).for_each(|(count, fault)| *count += fault),
            _ => {}
        }
    }

    /// Each fault was met alone; and orderly trains, none at all and others.
    pub fn is_good(&self) -> bool {
        let DamagedTrains { faulty, orderly, none } = self;
        faulty.iter().chain([none, &(orderly - none)]).all(|&count| count > 300)
    }
}

impl fmt::Display for DamagedTrains {
    fn fmt(&self, f: &mut fmt::Formatter) -> fmt::Result {
        let DamagedTrains { faulty: [unknown, overfull, out_of_order, not_full], orderly, none } = self;
        write!(f, "damaged trains: {unknown} unknown, {overfull} overfull, {out_of_order} out of order, {not_full} not full, ")?;
        write!(f, "{orderly} orderly ({none} without any train)")
    }
}

/// The state with some damage; `other` is one of another sheet.
pub fn damaged(rng: &mut Rng, state: &State, other: &State, sheet: &Sheet) -> State {
    let mut state = *state;
    match rng.index(12) {
        0 => state = wild(rng),
        1 => state = NO_STATE,
        2 => state = *other,
        3 => hide(rng, &mut state, sheet),
        4 => (0..2).for_each(|_| damage_field(rng, &mut state, sheet)),
        5..=8 => damage_trains(rng, &mut state, sheet),
        _ => damage_field(rng, &mut state, sheet),
    }
    state
}

/// Any numbers.
fn wild(rng: &mut Rng) -> State {
    let mut bits = || (u64::from(rng.within(0, u32::MAX)) << 32) | u64::from(rng.within(0, u32::MAX));
    State {
        pairs: bits() as usize,
        rounds: bits() as usize,
        limit: bits() as i64,
        last: bits() as u32,
        ended: bits() as u8,
        train: [0; MOST_ORDERS].map(|_: u8| bits() as u8),
        latest: [0; MOST_ORDERS].map(|_: u8| bits() as u8),
    }
}

/// Damage that a call cannot tell.
fn hide(rng: &mut Rng, state: &mut State, sheet: &Sheet) {
    let (n, q) = sheet.size();
    state.rounds = rng.index(figure(sheet));
    state.pairs = rng.index(state.rounds + 1);
    state.limit = rng.pick(&[i64::MIN, -100, 0, 100, i64::MAX]);
    state.last = rng.pick(&[0, state.last, u32::MAX]);
    if state.ended != 0 || rng.one_in(2) {
        state.train[..n].fill(0);
        state.latest[..n].fill(q as u8);
    }
    state.ended = 0;
    state.train[n..].fill_with(|| rng.byte());
    state.latest[n..].fill_with(|| rng.byte());
}

/// Other trains for one order, for two, for those before train i or for all, each of the sheet or none; every second time after another loading.
fn damage_trains(rng: &mut Rng, state: &mut State, sheet: &Sheet) {
    let (n, q) = sheet.size();
    let (at, other, i) = (rng.index(n), rng.index(n), rng.index(q) as u8 + 1);
    if state.ended == 0 && rng.one_in(2) {
        load_otherwise(rng, state, sheet);
    }
    match rng.index(8) {
        0 => state.train[at] = 0,
        1 => state.train[at] = i,
        2 | 3 => state.train.swap(at, other),
        4 => state.train[..n].fill(0),
        5 | 6 => state.train[..n].iter_mut().filter(|train| **train < i).for_each(|train| *train = rng.pick(&[0, i])),
        _ => state.train[..n].fill_with(|| rng.index(q + 1) as u8),
    }
}

/// The trains of a loading by other latest trains, of which none is earlier: orderly ones.
fn load_otherwise(rng: &mut Rng, state: &mut State, sheet: &Sheet) {
    let (n, q) = sheet.size();
    let latest: Vec<usize> = state.latest[..n].iter().map(|&last| rng.within(last.into(), q as u32) as usize).collect();
    put_first(&round(sheet, &latest, None).train, &mut state.train);
}

fn damage_field(rng: &mut Rng, state: &mut State, sheet: &Sheet) {
    let (n, q) = sheet.size();
    let (at, most) = (rng.index(n), figure(sheet));
    #[rustfmt::skip]
    let value = rng.pick(&[
        0, 1, n - 1, n, q, q + 1, n * q, MOST_TRAINS, MOST_TRAINS + 1, MOST_ORDERS, most - 1, most, most + 1, 255, 256, usize::MAX / 2, usize::MAX,
    ]);
    match rng.index(7) {
        0 => state.pairs = value,
        1 => state.rounds = value,
        2 => state.limit = rng.pick(&[i64::MIN, value as i64, -(value as i64 / 2), i64::MAX]),
        3 => state.last = value as u32,
        4 => state.ended = value as u8,
        5 => state.train[at] = value as u8,
        _ => state.latest[at] = value as u8,
    }
}
