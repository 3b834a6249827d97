//! Drawn sheets: hard ones, with many rounds or many pairs, and some of any kind.

use crate::store::Store;
use native::climb::climb;
use native::draw::big_full;
use native::ladder::{ladder_timetable, ladder_windows, Ladder};
use native::limits::{MOST_ORDERS, MOST_TRAINS};
use native::planner::list;
use native::rng::Rng;
use native::sheet::{Form, Sheet, FORMS};

/// Orders and trains of the hard sheets: the most there may be.
pub const N: u32 = MOST_ORDERS as u32;
pub const Q: usize = MOST_TRAINS;

/// Of so many moving ladders the one with the most rounds and pairs is stored.
const MOVING_TRIES: usize = 30;

/// A climb starts above so many rounds, and takes so many steps.
const START_ROUNDS: usize = 40;
const CLIMB_STEPS: u32 = 60;

pub fn store_hard(store: &mut Store) {
    let mut rng = Rng::new(21);
    store.group(500);
    fixed_ladders(store, &mut rng);
    moving_ladders(store, &mut rng);
    for (form, name) in [(Form::Timetable, "climbed-timetable"), (Form::Windows, "climbed-window")] {
        let start = find_planned(&mut rng, big_full, form, (N, Q), |rounds, _| rounds > START_ROUNDS);
        store.planned_sheet(name, &climb(&mut rng, start, CLIMB_STEPS));
    }
}

/// Ladders whose departures stay.
fn fixed_ladders(store: &mut Store, rng: &mut Rng) {
    for (name, release, stir, shuffled) in [
        ("equal-releases", 0, 0, false),
        ("shuffled", 2_000, 0, true),
        ("shuffled-few-releases", 9, 0, true),
        ("shuffled-stirred", 2_000, 60, true),
    ] {
        let ladder = Ladder { release, stir, shuffled };
        store.planned_sheet(&format!("ladder-{name}-timetable"), &ladder_timetable(rng, N, Q, ladder));
        store.planned_sheet(&format!("ladder-{name}-window"), &ladder_windows(rng, N, Q, ladder, release));
    }
}

/// Ladders whose departures move with the loading.
fn moving_ladders(store: &mut Store, rng: &mut Rng) {
    for (name, release, stir, shuffled) in
        [("moving", 30_000, 0, false), ("moving-shuffled", 9_000, 0, true), ("moving-stirred", 900, 60, true)]
    {
        let ladder = Ladder { release, stir, shuffled };
        store.planned_sheet(&format!("ladder-{name}-window"), &best_of(|| ladder_windows(rng, N, Q, ladder, 0)));
    }
}

/// Of some ladders the one with the most rounds and pairs.
pub fn best_of(draw: impl FnMut() -> Sheet) -> Sheet {
    let tries = std::iter::repeat_with(draw).take(MOVING_TRIES);
    let best = tries.max_by_key(|sheet| list(sheet).map_or(0, |listing| listing.rounds * listing.pairs.len()));
    best.expect("a try")
}

/// Draws a sheet of so many orders and trains.
type Draw = fn(&mut Rng, Form, u32, usize) -> Sheet;

/// The first drawn sheet whose search has the wanted counts of rounds and pairs.
fn find_planned(
    rng: &mut Rng,
    draw: Draw,
    form: Form,
    (n, q): (u32, usize),
    wanted: fn(usize, usize) -> bool,
) -> Sheet {
    let mut sheets = std::iter::repeat_with(|| draw(rng, form, n, q));
    let found = sheets.find(|sheet| list(sheet).is_ok_and(|listing| wanted(listing.rounds, listing.pairs.len())));
    found.expect("there are sheets without end")
}

pub fn store_any(store: &mut Store) {
    store.group(700);
    store_random(store, &mut Rng::new(31), "random", big_full);
}

/// Of three sizes and both forms.
pub fn store_random(store: &mut Store, rng: &mut Rng, kind: &str, draw: Draw) {
    for size in [(9, 4), (50, 12), (200, 32)] {
        for form in FORMS {
            let (name, wanted): (_, fn(usize, usize) -> bool) = match form {
                Form::Windows => ("window", |rounds, pairs| rounds > 3 && pairs > 1),
                Form::Timetable => ("timetable", |rounds, _| rounds > 3),
            };
            let sheet = find_planned(rng, draw, form, size, wanted);
            store.planned_sheet(&format!("{kind}-{}-orders-{}-trains-{name}", size.0, size.1), &sheet);
        }
    }
}
