//! Gone parts, for tests: ones told by their numbers, the first trains of plans, those damaged in one place, and wild ones; and sheets for them.

use crate::checking::{ForeignPlan, Row};
use crate::draw::small;
use crate::foreign::{drawn, shuffled, wild};
use crate::gone::Gone;
use crate::rng::Rng;
use crate::search::{search, Recorded};
use crate::sheet::{Form, Paths, Sheet, Windows};

/// Numbers that differ by this end in the same byte.
const BYTE: u32 = 256;

/// Trains that have left by a minute: their departures, and order and train of each row.
pub fn gone(minute: u32, departures: &[u32], rows: &[(u32, u32)]) -> Gone {
    let rows = rows.iter().map(|&(order, train)| Row { order, train }).collect();
    Gone { minute, trains: ForeignPlan { departures: departures.to_vec(), rows } }
}

/// A small sheet of the window form. Every second one has three trains or more and several pairs, so that a choice may be left behind gone trains.
pub fn small_sheet(rng: &mut Rng, most_orders: u32) -> Sheet {
    let with_choice = rng.one_in(2);
    let has_choice =
        |sheet: &Sheet| sheet.capacity.len() > 2 && search(sheet).is_ok_and(|recorded| recorded.entries.len() > 1);
    let mut sheets = std::iter::repeat_with(|| small(rng, Form::Windows, most_orders));
    sheets.find(|sheet| !with_choice || has_choice(sheet)).expect("there are sheets without end")
}

/// So many of a plan's first trains have gone, at a minute between the last of them and the next one, at one of both, or later. Some of their orders may have
/// missed them.
pub fn first_trains(rng: &mut Rng, plan: &ForeignPlan, count: usize) -> Gone {
    let departures = plan.departures[..count].to_vec();
    let last = departures.iter().copied().max().unwrap_or(0);
    let next = plan.departures.get(count).copied().unwrap_or(last).max(last);
    let minute = match rng.index(8) {
        0..3 => last,
        3 => next,
        4 => next.saturating_add(rng.pick(&[1, 2, 5, 20, 1_000, 30_000])),
        _ => rng.within(last, next),
    };
    let mut trains = shuffled(rng, &ForeignPlan { departures, rows: plan.rows.clone() });
    trains.rows.retain(|row| row.train as usize <= count);
    if rng.one_in(5) {
        trains.rows.retain(|_| !rng.one_in(3));
    }
    Gone { minute, trains }
}

/// A gone part for an admitted sheet, most often a good one: any number of the first trains but not all, and seldom none, of a drawn plan or of one of our own.
pub fn drawn_gone(rng: &mut Rng, sheet: &Sheet) -> Gone {
    let (_, q) = sheet.size();
    let plan = match search(sheet) {
        Ok(Recorded { entries, .. }) if rng.one_in(2) => (&entries[rng.index(entries.len())].plan).into(),
        _ => drawn(rng, sheet),
    };
    let count = if q == 1 || rng.one_in(8) { 0 } else { 1 + rng.index(q - 1) };
    first_trains(rng, &plan, count)
}

/// A gone part whose numbers have little to do with the sheet.
pub fn wild_gone(rng: &mut Rng, sheet: &Sheet) -> Gone {
    let (n, q) = sheet.size();
    let (orders, trains) = (rng.index(n + 2), rng.index(q + 2));
    let minute = if rng.one_in(4) { rng.within(0, u32::MAX) } else { rng.within(0, 60) };
    Gone { minute, trains: wild(rng, orders, trains) }
}

/// A gone part that was damaged in one place.
pub struct DamagedGone {
    pub gone: Gone,
    /// It is no longer good; else it may be.
    pub refused: bool,
}

/// A good gone part with each damage, at drawn places.
pub fn damaged_gone(rng: &mut Rng, sheet: &Sheet, gone: &Gone) -> Vec<DamagedGone> {
    let mut all = other_minutes(gone);
    all.extend(other_departures(rng, sheet, gone));
    all.extend(other_counts(sheet, gone));
    all.extend(other_rows(rng, sheet, gone));
    all.extend(more_rows(rng, sheet, gone));
    all.retain(|damaged| damaged.gone != *gone);
    all
}

fn with(gone: &Gone, refused: bool, change: impl FnOnce(&mut Gone)) -> DamagedGone {
    let mut gone = gone.clone();
    change(&mut gone);
    DamagedGone { gone, refused }
}

/// A minute at and beside the last departure, and any.
fn other_minutes(gone: &Gone) -> Vec<DamagedGone> {
    let last = gone.trains.departures.last().copied();
    let minutes = [
        last.map(|last| last.wrapping_sub(1)),
        last,
        Some(0),
        Some(u32::MAX),
        Some(gone.minute.saturating_add(BYTE * BYTE)),
    ];
    let of = |minute: u32| with(gone, last > Some(minute), |gone| gone.minute = minute);
    minutes.into_iter().flatten().map(of).collect()
}

/// One train has left at another time: by one, far off, and at and beside each edge that a rule sets.
fn other_departures(rng: &mut Rng, sheet: &Sheet, gone: &Gone) -> Vec<DamagedGone> {
    let departures = &gone.trains.departures;
    let (Paths::Windows(Windows { gap, from, to, .. }), false) = (&sheet.paths, departures.is_empty()) else {
        return Vec::new();
    };
    let i = rng.index(departures.len());
    let mut edges = vec![departures[i], rng.pick(from), rng.pick(to), gone.minute.min(u32::MAX - 1)];
    edges.push(rng.pick(&sheet.orders.release));
    edges.extend(i.checked_sub(1).map(|ahead| departures[ahead] + gap));
    edges.extend(departures.get(i + 1).and_then(|behind| behind.checked_sub(*gap)));
    let far = [0, departures[i] + BYTE * BYTE, u32::MAX - gap + 1, u32::MAX];
    let instants = edges.iter().flat_map(|&edge| edge.saturating_sub(1)..=edge + 1).chain(far);
    let of = |instant: u32| with(gone, instant > gone.minute, |gone| gone.trains.departures[i] = instant);
    instants.map(of).collect()
}

/// A departure fewer or more, for every train of the sheet, for one more, and so many more that the count ends in the same byte. The further trains leave a
/// gap behind each other, and by the minute.
fn other_counts(sheet: &Sheet, gone: &Gone) -> Vec<DamagedGone> {
    let (_, q) = sheet.size();
    let Paths::Windows(windows) = &sheet.paths else { panic!("a sheet of the window form") };
    let departures = &gone.trains.departures;
    let count = departures.len();
    let resized = |length: usize| {
        let loses_rows = gone.trains.rows.iter().any(|row| row.train as usize > length);
        with(gone, length >= q || loses_rows, |gone| {
            let first = departures.last().map_or(windows.from[0], |last| last + windows.gap);
            let further = (first..).step_by(windows.gap as usize).take(length.saturating_sub(count));
            gone.trains.departures = departures.iter().copied().take(length).chain(further).collect();
            gone.minute = gone.trains.departures.iter().copied().max().unwrap_or(0).max(gone.minute);
        })
    };
    [count.saturating_sub(1), count + 1, q, q + 1, count + BYTE as usize].map(resized).into()
}

/// One row with an order or a train that is not there, or not gone; one with an order of another row; one left out.
fn other_rows(rng: &mut Rng, sheet: &Sheet, gone: &Gone) -> Vec<DamagedGone> {
    let rows = &gone.trains.rows;
    if rows.is_empty() {
        return Vec::new();
    }
    let (n, _) = sheet.size();
    let (at, other, count) = (rng.index(rows.len()), rng.index(rows.len()), gone.trains.departures.len() as u32);
    let Row { order, train } = rows[at];
    let orders = [0, n as u32 + 1, order + BYTE, order + BYTE * BYTE, u32::MAX];
    let trains = [0, count + 1, train + BYTE, train + BYTE * BYTE, u32::MAX];
    let mut all: Vec<DamagedGone> =
        orders.map(|order| with(gone, true, |gone| gone.trains.rows[at].order = order)).into();
    all.extend(trains.map(|train| with(gone, true, |gone| gone.trains.rows[at].train = train)));
    all.push(with(gone, at != other, |gone| gone.trains.rows[at].order = rows[other].order));
    all.push(with(gone, false, |gone| gone.trains.rows[at].train = rng.within(1, count)));
    all.push(with(gone, false, |gone| _ = gone.trains.rows.remove(at)));
    all.push(with(gone, true, |gone| gone.trains.rows.insert(other, rows[at])));
    all.push(with(gone, true, |gone| gone.trains.rows.resize(rows.len() + BYTE as usize, rows[at])));
    all
}

/// One order more, on a gone train or on one that has not gone; and more orders on a gone train than it has places, if there are so many.
fn more_rows(rng: &mut Rng, sheet: &Sheet, gone: &Gone) -> Vec<DamagedGone> {
    let (n, q) = sheet.size();
    let (rows, count) = (&gone.trains.rows, gone.trains.departures.len() as u32);
    let left: Vec<u32> = (1..=n as u32).filter(|order| rows.iter().all(|row| row.order != *order)).collect();
    let mut all = Vec::new();
    if !left.is_empty() {
        let (order, train) = (rng.pick(&left), rng.within(1, q as u32));
        all.push(with(gone, train > count, |gone| gone.trains.rows.push(Row { order, train })));
    }
    if count > 0 {
        let train = rng.within(1, count);
        let places = sheet.capacity[train as usize - 1] as usize;
        let too_many = |gone: &mut Gone| {
            gone.trains.rows.extend(left.iter().map(|&order| Row { order, train }));
            gone.trains.rows.sort_by_key(|row| row.train != train);
            gone.trains.rows.iter_mut().take(places + 1).for_each(|row| row.train = train);
        };
        all.push(with(gone, places < n, too_many));
    }
    all
}
