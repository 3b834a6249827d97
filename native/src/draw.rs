//! Drawn sheets of both forms: full ones, whose capacities add up to the number of orders, and short ones, with places to spare.

use crate::limits::*;
use crate::rng::Rng;
use crate::sheet::{Form, Orders, Paths, Sheet, Timetable, Windows};

/// Up to so many orders every loading of a small sheet is to be listed: a short one has no more than a full one of nine orders may have.
const LISTED_ORDERS: u32 = 9;
const MOST_LOADINGS: usize = 362_880;

/// A sheet of small numbers: many ties, touching windows, fast trains behind slow ones, at times no schedule. Every second one is full.
pub fn small(rng: &mut Rng, form: Form, most_orders: u32) -> Sheet {
    if rng.one_in(2) {
        small_full(rng, form, most_orders)
    } else {
        small_short(rng, form, most_orders)
    }
}

/// The capacities add up to the number of orders.
pub fn small_full(rng: &mut Rng, form: Form, most_orders: u32) -> Sheet {
    let n = rng.within(1, most_orders);
    small_of(rng, form, n)
}

/// One place to spare, a few, or many.
pub fn small_short(rng: &mut Rng, form: Form, most_orders: u32) -> Sheet {
    let n = rng.within(1, most_orders);
    let places = (n + drawn_spare(rng, n)).min(MOST_CAPACITY);
    let mut full = std::iter::repeat_with(|| small_of(rng, form, places));
    let listed = |sheet: &Sheet| n > LISTED_ORDERS || sheet.capacity.len().saturating_pow(n) <= MOST_LOADINGS;
    short(full.find(listed).expect("there are sheets without end"), n)
}

/// A full sheet of `n` orders.
fn small_of(rng: &mut Rng, form: Form, n: u32) -> Sheet {
    match form {
        Form::Windows => small_windows(rng, n),
        Form::Timetable => small_timetable(rng, n),
    }
}

/// A sheet of `n` orders and `q` trains with numbers anywhere in their ranges. It is full every second time, if it can be full.
pub fn big(rng: &mut Rng, form: Form, n: u32, q: usize) -> Sheet {
    let most_places = MOST_CAPACITY * q as u32;
    if n == most_places || q as u32 <= n && rng.one_in(2) {
        big_full(rng, form, n, q)
    } else {
        big_short(rng, form, n, q)
    }
}

/// The capacities add up to the number of orders, which are no fewer than the trains.
pub fn big_full(rng: &mut Rng, form: Form, n: u32, q: usize) -> Sheet {
    match form {
        Form::Windows => big_windows(rng, n, q),
        Form::Timetable => big_timetable(rng, n, q),
    }
}

/// One place to spare, a few, or many; trains may outnumber the orders.
pub fn big_short(rng: &mut Rng, form: Form, n: u32, q: usize) -> Sheet {
    let places = (n + drawn_spare(rng, n)).clamp(q as u32, MOST_CAPACITY * q as u32);
    short(big_full(rng, form, places, q), n)
}

/// Numbers of orders and trains, anywhere in their limits, such that each order finds a place. Trains may outnumber the orders.
pub fn drawn_size(rng: &mut Rng) -> (u32, usize) {
    let n = rng.within(1, MOST_ORDERS as u32);
    (n, rng.within(n.div_ceil(MOST_CAPACITY), MOST_TRAINS as u32) as usize)
}

/// How many places are left by `n` orders: one, a few, or many.
fn drawn_spare(rng: &mut Rng, n: u32) -> u32 {
    match rng.index(4) {
        0 => 1,
        1 => rng.within(2, 5),
        2 => rng.within(1, n),
        _ => rng.within(n, 4 * n),
    }
}

/// A full sheet of which all orders but the first `n` are left out.
fn short(mut sheet: Sheet, n: u32) -> Sheet {
    let Orders { release, due, weight } = &mut sheet.orders;
    [release, due, weight].iter_mut().for_each(|column| column.truncate(n as usize));
    assert!(sheet.spare_places() > Some(0));
    sheet
}

/// `total` places on `q` trains.
fn capacities(rng: &mut Rng, total: u32, q: usize) -> Vec<u32> {
    assert!((q as u32..=MOST_CAPACITY * q as u32).contains(&total));
    let mut capacity = vec![1; q];
    for _ in 0..total - q as u32 {
        let mut i = rng.index(q);
        while capacity[i] == MOST_CAPACITY {
            i = (i + 1) % q;
        }
        capacity[i] += 1;
    }
    capacity
}

fn drawn_orders(rng: &mut Rng, n: u32, last_release: u32, last_due: u32, heaviest: u32) -> Orders {
    let mut orders = Orders::default();
    for _ in 0..n {
        orders.push(rng.within(0, last_release), rng.within(0, last_due), rng.within(1, heaviest));
    }
    orders
}

fn small_orders(rng: &mut Rng, n: u32, last_departure: u32) -> Orders {
    let last_release = rng.pick(&[0, 1, 3, 6, 12, 24]).min(last_departure);
    let last_due = rng.pick(&[0, 2, 6, 12, 25]);
    let heaviest = rng.pick(&[1, 2, 3, 10]);
    drawn_orders(rng, n, last_release, last_due, heaviest)
}

fn small_windows(rng: &mut Rng, n: u32) -> Sheet {
    let most_trains = n.min(MOST_TRAINS as u32);
    let q = if n > 1 && !rng.one_in(6) { rng.within(2, n.min(4)) } else { rng.within(1, most_trains) } as usize;
    let widest = rng.pick(&[1, 2, 5, 12]);
    let gap = rng.within(1, widest);
    let capacity = capacities(rng, n, q);
    let mut windows = Windows { gap, ..Windows::default() };
    let slowest = rng.pick(&[1, 3, 9]);
    windows.running = (0..q).map(|_| rng.within(1, slowest)).collect();
    if rng.one_in(4) {
        windows.running.sort_by(|a, b| b.cmp(a));
    }
    let longest = rng.pick(&[0, 1, 4, 20, 50, 50]);
    let mut from = rng.within(0, 3);
    for _ in 0..rng.within(1, 6) {
        let to = from + rng.within(0, longest);
        windows.from.push(from);
        windows.to.push(to);
        from = to + if rng.one_in(2) { 1 } else { rng.within(1, 5) };
    }
    let orders = small_orders(rng, n, windows.to[windows.to.len() - 1]);
    Sheet { capacity, paths: Paths::Windows(windows), orders }
}

fn small_timetable(rng: &mut Rng, n: u32) -> Sheet {
    let q = rng.within(1, n.min(MOST_TRAINS as u32)) as usize;
    let capacity = capacities(rng, n, q);
    let mut timetable = Timetable::default();
    let (mut departure, mut arrival) = (rng.within(0, 4), 0);
    let step = rng.pick(&[1, 2, 6]);
    for _ in 0..q {
        arrival = (arrival + rng.within(1, step)).max(departure + rng.within(1, 4));
        timetable.departure.push(departure);
        timetable.arrival.push(arrival);
        departure += rng.within(1, step);
    }
    let orders = small_orders(rng, n, timetable.departure[q - 1]);
    Sheet { capacity, paths: Paths::Timetable(timetable), orders }
}

fn big_orders(rng: &mut Rng, n: u32, last_release: u32) -> Orders {
    let last_due = rng.pick(&[100, 20_000, LAST_INSTANT]);
    let heaviest = rng.pick(&[1, 3, 40, MOST_WEIGHT]);
    drawn_orders(rng, n, last_release, last_due, heaviest)
}

fn big_windows(rng: &mut Rng, n: u32, q: usize) -> Sheet {
    let widest = rng.pick(&[1, 30, 400, MOST_GAP]);
    let gap = rng.within(1, widest);
    let capacity = capacities(rng, n, q);
    let mut windows = Windows { gap, ..Windows::default() };
    let slowest = rng.pick(&[1, 100, MOST_RUNNING]);
    windows.running = (0..q).map(|_| rng.within(1, slowest)).collect();
    let count = rng.within(1, MOST_WINDOWS as u32);
    let share = LAST_INSTANT / count;
    for window in 0..count {
        let from = window * share + if rng.one_in(3) { 0 } else { rng.within(0, share / 2) };
        let whole_share = rng.one_in(3);
        let to = if whole_share { (window + 1) * share - 1 } else { rng.within(from, from + share / 2 - 1) };
        windows.from.push(from);
        windows.to.push(to);
    }
    let last_release = rng.pick(&[0, 10, 5_000, 45_000]);
    let orders = big_orders(rng, n, last_release);
    Sheet { capacity, paths: Paths::Windows(windows), orders }
}

fn big_timetable(rng: &mut Rng, n: u32, q: usize) -> Sheet {
    let capacity = capacities(rng, n, q);
    let mut timetable = Timetable::default();
    let share = LAST_INSTANT / q as u32;
    let (mut departure, mut arrival) = (rng.within(0, share / 2), 0);
    for _ in 0..q {
        arrival = (arrival + rng.within(1, share)).max(departure + rng.within(1, 3_000));
        timetable.departure.push(departure);
        timetable.arrival.push(arrival);
        departure += rng.within(1, share - 1);
    }
    let last_release = rng.pick(&[0, 10, timetable.departure[0], timetable.departure[q / 2]]);
    let orders = big_orders(rng, n, last_release);
    Sheet { capacity, paths: Paths::Timetable(timetable), orders }
}
