//! Hard sheets with places to spare.

use crate::drawn::{best_of, N, Q};
use crate::store::Store;
use native::ladder::{short_ladder_timetable, short_ladder_windows, Ladder};
use native::limits::MOST_CAPACITY;
use native::planner::{bound, list};
use native::rng::Rng;

/// The most rounds that a sheet within the limits can have.
const MOST_ROUNDS: usize = 5_985;

pub fn store_hard(store: &mut Store) {
    let mut rng = Rng::new(22);
    store.group(520);
    most_rounds_of_all(store, &mut rng);
    fixed(store, &mut rng);
    moving(store, &mut rng);
}

/// The first four trains hold all orders, and each of the others has so many places.
fn four_hold_all(fourth: u32, others: u32) -> Vec<u32> {
    [vec![MOST_CAPACITY; 3], vec![fourth], vec![others; Q - 4]].concat()
}

/// Each round has one order move by one train only.
fn most_rounds_of_all(store: &mut Store, rng: &mut Rng) {
    let ladder = Ladder { release: 2_000, stir: 0, shuffled: true };
    let of_64 = short_ladder_timetable(rng, N, four_hold_all(MOST_CAPACITY, MOST_CAPACITY), ladder);
    let of_one = short_ladder_windows(rng, N, four_hold_all(8, 1), ladder, ladder.release);
    for (name, sheet) in [("trains-of-64-timetable", of_64), ("trains-of-one-window", of_one)] {
        let rounds = list(&sheet).map(|listing| listing.rounds);
        assert_eq!((rounds, bound(&sheet)), (Ok(MOST_ROUNDS), Ok(MOST_ROUNDS)));
        store.planned_sheet(&format!("short-most-rounds-{name}"), &sheet);
    }
}

fn drawn_capacities(rng: &mut Rng) -> Vec<u32> {
    (0..Q).map(|_| rng.within(8, MOST_CAPACITY)).collect()
}

/// Departures stay; some orders move together, or by more than one train.
fn fixed(store: &mut Store, rng: &mut Rng) {
    let few_releases = Ladder { release: 9, stir: 0, shuffled: true };
    let capacity = drawn_capacities(rng);
    let sheet = short_ladder_timetable(rng, N, capacity, few_releases);
    store.planned_sheet("short-ladder-few-releases-timetable", &sheet);
    let stirred = Ladder { release: 2_000, stir: 60, shuffled: true };
    let capacity = drawn_capacities(rng);
    let sheet = short_ladder_windows(rng, N, capacity, stirred, stirred.release);
    store.planned_sheet("short-ladder-stirred-window", &sheet);
}

/// Departures move with the loading.
fn moving(store: &mut Store, rng: &mut Rng) {
    let far = Ladder { release: 9_000, stir: 0, shuffled: true };
    let sheet = best_of(|| short_ladder_windows(rng, N, four_hold_all(8, 1), far, 0));
    store.planned_sheet("short-ladder-moving-trains-of-one-window", &sheet);
    let near = Ladder { release: 3_000, ..far };
    let draw = || {
        let capacity = drawn_capacities(rng);
        short_ladder_windows(rng, N, capacity, near, 0)
    };
    store.planned_sheet("short-ladder-moving-window", &best_of(draw));
}
