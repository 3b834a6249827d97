//! Ladders: sheets whose search makes many rounds; full ones, and short ones with given capacities.

use crate::limits::*;
use crate::rng::Rng;
use crate::sheet::{Orders, Paths, Sheet, Timetable, Windows};

/// How a ladder's orders are made.
#[derive(Clone, Copy)]
pub struct Ladder {
    /// Releases rise from 0 to this, step by step.
    pub release: u32,
    /// Due times are moved by up to this.
    pub stir: u32,
    /// Orders stand in random order; else step by step.
    pub shuffled: bool,
}

/// Capacities with the most places in front, which leaves room for many rounds.
fn front_heavy(rng: &mut Rng, n: u32, q: usize) -> Vec<u32> {
    let mut capacity = vec![1; q];
    let mut rest = n - q as u32;
    for places in &mut capacity {
        let more = rest.min(rng.within(20, MOST_CAPACITY - 1));
        *places += more;
        rest -= more;
    }
    assert_eq!(rest, 0, "every order has a place");
    capacity
}

/// How many of `n` orders ride each train if these are filled from the first one on.
fn front_loads(n: u32, capacity: &[u32]) -> Vec<u32> {
    let mut rest = n;
    let load = |&places: &u32| {
        let load = places.min(rest);
        rest -= load;
        load
    };
    let loads = capacity.iter().map(load).collect();
    assert_eq!(rest, 0, "every order has a place");
    loads
}

/// Orders that are first loaded just the wrong way round, each due a little before the arrival of
/// the train it ends on, so that in each round few orders have to move, and by one train only.
fn ladder_orders(rng: &mut Rng, n: u32, capacity: &[u32], arrival: &[u32], ladder: Ladder) -> Orders {
    let mut steps = Vec::new();
    for (i, &load) in front_loads(n, capacity).iter().enumerate().rev() {
        for _ in 0..load {
            let step = steps.len() as u32;
            let due = arrival[i].saturating_sub(step) + rng.within(0, ladder.stir);
            steps.push((ladder.release * step / n, due.min(LAST_INSTANT)));
        }
    }
    if ladder.shuffled {
        (1..steps.len()).rev().for_each(|j| steps.swap(j, rng.index(j + 1)));
    }
    let mut orders = Orders::default();
    steps.into_iter().for_each(|(release, due)| orders.push(release, due, 1));
    orders
}

pub fn ladder_timetable(rng: &mut Rng, n: u32, q: usize, ladder: Ladder) -> Sheet {
    let capacity = front_heavy(rng, n, q);
    short_ladder_timetable(rng, n, capacity, ladder)
}

pub fn short_ladder_timetable(rng: &mut Rng, n: u32, capacity: Vec<u32>, ladder: Ladder) -> Sheet {
    let between = rng.within(2_000, 3_100);
    let mut timetable = Timetable::default();
    for i in 0..capacity.len() as u32 {
        timetable.departure.push(ladder.release + i);
        timetable.arrival.push(between * (i + 1) + ladder.release);
    }
    let orders = ladder_orders(rng, n, &capacity, &timetable.arrival, ladder);
    Sheet { capacity, paths: Paths::Timetable(timetable), orders }
}

/// The first window starts at `opens`. If that is at least the ladder's release, departures stay; else they move with the loading.
pub fn ladder_windows(rng: &mut Rng, n: u32, q: usize, ladder: Ladder, opens: u32) -> Sheet {
    let gap = rng.within(300, MOST_GAP);
    let capacity = front_heavy(rng, n, q);
    ladder_with_gap(rng, n, capacity, ladder, opens, gap)
}

pub fn short_ladder_windows(rng: &mut Rng, n: u32, capacity: Vec<u32>, ladder: Ladder, opens: u32) -> Sheet {
    let gap = rng.within(300, MOST_GAP);
    ladder_with_gap(rng, n, capacity, ladder, opens, gap)
}

fn ladder_with_gap(rng: &mut Rng, n: u32, capacity: Vec<u32>, ladder: Ladder, opens: u32, gap: u32) -> Sheet {
    let running = rng.within(200, 1_000);
    let mut windows = Windows { gap, running: vec![running; capacity.len()], ..Windows::default() };
    let share = (LAST_INSTANT - opens) / MOST_WINDOWS as u32;
    for window in 0..MOST_WINDOWS as u32 {
        windows.from.push(opens + window * share);
        windows.to.push(opens + (window + 1) * share - 1);
    }
    let arrival: Vec<u32> = (0..capacity.len() as u32).map(|i| opens + i * gap + running).collect();
    let orders = ladder_orders(rng, n, &capacity, &arrival, ladder);
    Sheet { capacity, paths: Paths::Windows(windows), orders }
}
