//! Plans from elsewhere, for tests: our own told in rows, those damaged in one place, and drawn ones.

use crate::checking::{ForeignPlan, Row};
use crate::plan::Plan;
use crate::refusal::*;
use crate::rng::Rng;
use crate::sheet::{Paths, Sheet, Windows};

/// Numbers that differ by this end in the same byte.
const BYTE: u32 = 256;

/// A departure is moved far by this.
const FAR: u32 = 1_000;

impl From<&Plan> for ForeignPlan {
    /// The rows stand by order.
    fn from(plan: &Plan) -> ForeignPlan {
        let row = |(order, &train): (u32, &u8)| Row { order, train: train.into() };
        ForeignPlan {
            departures: plan.times.iter().map(|train| train.departure).collect(),
            rows: (1..).zip(&plan.train_of_order).map(row).collect(),
        }
    }
}

/// The same plan with its rows in another order.
pub fn shuffled(rng: &mut Rng, plan: &ForeignPlan) -> ForeignPlan {
    let mut plan = plan.clone();
    shuffle(rng, &mut plan.rows);
    plan
}

fn shuffle<T>(rng: &mut Rng, elements: &mut [T]) {
    (1..elements.len()).rev().for_each(|at| elements.swap(at, rng.index(at + 1)));
}

/// A schedule that was damaged in one place.
pub struct Damaged {
    pub plan: ForeignPlan,
    /// The refusal that the damage leads to; none where the plan may still be a schedule.
    pub number: Option<usize>,
}

/// The schedule with each damage, at drawn places.
pub fn damaged(rng: &mut Rng, sheet: &Sheet, schedule: &ForeignPlan) -> Vec<Damaged> {
    let mut all = other_departures(rng, sheet, schedule);
    all.extend(other_trains(rng, sheet, schedule));
    all.extend(other_orders(rng, sheet, schedule));
    all.extend(other_lengths(rng, schedule));
    all.retain(|damaged| damaged.plan != *schedule);
    all
}

/// One train leaves at another time: by one, by far, and at and beside each edge that a rule sets. A timetable allows none of these.
fn other_departures(rng: &mut Rng, sheet: &Sheet, schedule: &ForeignPlan) -> Vec<Damaged> {
    let i = rng.index(schedule.departures.len());
    let departure = schedule.departures[i];
    let riders = schedule.rows.iter().filter(|row| row.train as usize == i + 1);
    let latest_release = riders.map(|row| sheet.orders.release[row.order as usize - 1]).max().unwrap_or(0);
    let mut instants = vec![0, departure + FAR, departure.saturating_sub(FAR), departure + BYTE * BYTE, u32::MAX];
    let mut edges = vec![departure, latest_release];
    let number = match &sheet.paths {
        Paths::Windows(Windows { gap, from, to, .. }) => {
            edges.extend([rng.pick(from), rng.pick(to)]);
            edges.extend(i.checked_sub(1).map(|ahead| schedule.departures[ahead] + gap));
            edges.extend(schedule.departures.get(i + 1).and_then(|behind| behind.checked_sub(*gap)));
            instants.push(u32::MAX - gap + 1);
            None
        }
        Paths::Timetable(timetable) => {
            edges.push(rng.pick(&timetable.departure));
            Some(RULE_BROKEN)
        }
    };
    instants.extend(edges.iter().flat_map(|&edge| edge.saturating_sub(1)..=edge + 1));
    let with = |instant| {
        let mut plan = schedule.clone();
        plan.departures[i] = instant;
        Damaged { plan, number }
    };
    instants.into_iter().map(with).collect()
}

/// One order on another train, which may have no place left; on a train that is not there; one order too many on a train; two orders on each other's
/// trains.
fn other_trains(rng: &mut Rng, sheet: &Sheet, schedule: &ForeignPlan) -> Vec<Damaged> {
    let (_, q) = sheet.size();
    let at = rng.index(schedule.rows.len());
    let train = schedule.rows[at].train;
    let with = |train: u32, number: Option<usize>| {
        let mut plan = schedule.clone();
        plan.rows[at].train = train;
        Damaged { plan, number }
    };
    let not_there = [0, q as u32 + 1, train + BYTE, train + BYTE * BYTE, u32::MAX];
    let mut all: Vec<Damaged> = not_there.iter().map(|&train| with(train, Some(WRONG_ROWS))).collect();
    let other = rng.within(1, q as u32);
    all.push(with(other, (!has_place(sheet, schedule, other)).then_some(RULE_BROKEN)));
    all.extend(one_too_many(rng, sheet, schedule));
    for _ in 0..3 {
        let mut plan = schedule.clone();
        let other = rng.index(plan.rows.len());
        (plan.rows[at].train, plan.rows[other].train) = (plan.rows[other].train, train);
        all.push(Damaged { plan, number: None });
    }
    all
}

fn has_place(sheet: &Sheet, schedule: &ForeignPlan, train: u32) -> bool {
    let riders = schedule.rows.iter().filter(|row| row.train == train).count();
    riders < sheet.capacity[train as usize - 1] as usize
}

/// A train gets orders until it has one more than places, if there are so many.
fn one_too_many(rng: &mut Rng, sheet: &Sheet, schedule: &ForeignPlan) -> Option<Damaged> {
    let (n, q) = sheet.size();
    let i = rng.index(q);
    let (train, places) = (i as u32 + 1, sheet.capacity[i] as usize);
    if places >= n {
        return None;
    }
    let mut plan = schedule.clone();
    plan.rows.sort_by_key(|row| row.train != train);
    plan.rows[..=places].iter_mut().for_each(|row| row.train = train);
    Some(Damaged { plan, number: Some(RULE_BROKEN) })
}

/// One row with another order: one that is met twice then, or one that is not there.
fn other_orders(rng: &mut Rng, sheet: &Sheet, schedule: &ForeignPlan) -> Vec<Damaged> {
    let (n, _) = sheet.size();
    let at = rng.index(n);
    let order = schedule.rows[at].order;
    let orders = [0, n as u32 + 1, order + BYTE, order + BYTE * BYTE, u32::MAX, rng.within(1, n as u32)];
    let with = |&order: &u32| {
        let mut plan = schedule.clone();
        plan.rows[at].order = order;
        Damaged { plan, number: Some(WRONG_ROWS) }
    };
    orders.iter().map(with).collect()
}

/// A row or a departure more or fewer, none at all, or so many more that the count ends in the same byte; a row in place of another.
fn other_lengths(rng: &mut Rng, schedule: &ForeignPlan) -> Vec<Damaged> {
    let (n, q) = (schedule.rows.len(), schedule.departures.len());
    let (row, into, train) = (rng.index(n), rng.index(n), rng.index(q));
    let changes: [&dyn Fn(&mut ForeignPlan); 11] = [
        &|plan| plan.rows.insert(into, plan.rows[row]),
        &|plan| plan.rows.push(Row { order: n as u32 + 1, train: 1 }),
        &|plan| plan.rows[into] = plan.rows[row],
        &|plan| _ = plan.rows.remove(row),
        &|plan| plan.rows.clear(),
        &|plan| plan.rows.resize(n + BYTE as usize, plan.rows[row]),
        &|plan| plan.departures.insert(train, plan.departures[train]),
        &|plan| plan.departures.push(u32::MAX),
        &|plan| _ = plan.departures.remove(train),
        &|plan| plan.departures.clear(),
        &|plan| plan.departures.resize(q + BYTE as usize, u32::MAX),
    ];
    let with = |change: &&dyn Fn(&mut ForeignPlan)| {
        let mut plan = schedule.clone();
        change(&mut plan);
        Damaged { plan, number: Some(WRONG_ROWS) }
    };
    changes.iter().map(with).collect()
}

/// A plan with the sheet's orders on drawn places, by release or in any order, and with departures that wait for releases, gap and windows, and at
/// times for nothing or too long. Most often it is a schedule, if the sheet has one.
pub fn drawn(rng: &mut Rng, sheet: &Sheet) -> ForeignPlan {
    let (n, _) = sheet.size();
    let mut orders: Vec<u32> = (1..=n as u32).collect();
    shuffle(rng, &mut orders);
    let release = |&order: &u32| sheet.orders.release[order as usize - 1];
    match rng.index(4) {
        0 => (),
        1 => orders.sort_by_key(|order| release(order) / 4),
        _ => orders.sort_by_key(release),
    }
    let trains = drawn_places(rng, sheet);
    let rows: Vec<Row> = orders.into_iter().zip(trains).map(|(order, train)| Row { order, train }).collect();
    let latest_release = |train: usize| {
        let riders = rows.iter().filter(|row| row.train as usize == train);
        riders.map(|row| release(&row.order)).max().unwrap_or(0)
    };
    let releases: Vec<u32> = (1..=sheet.capacity.len()).map(latest_release).collect();
    let departures = match &sheet.paths {
        Paths::Windows(windows) => drawn_departures(rng, windows, &releases),
        Paths::Timetable(timetable) => timetable.departure.clone(),
    };
    shuffled(rng, &ForeignPlan { departures, rows })
}

/// The train of each place that is taken, by rising trains: places left over anywhere, or trains filled one by one, so that others are empty. A capacity
/// may be any number here, and more places than orders are never taken.
fn drawn_places(rng: &mut Rng, sheet: &Sheet) -> Vec<u32> {
    let (n, q) = sheet.size();
    let mut trains: Vec<u32> = (1..=q as u32).collect();
    shuffle(rng, &mut trains);
    let places_of = |&train: &u32| std::iter::repeat_n(train, n.min(sheet.capacity[train as usize - 1] as usize));
    let mut places: Vec<u32> = trains.iter().flat_map(places_of).collect();
    if rng.one_in(2) {
        shuffle(rng, &mut places);
    }
    places.truncate(n);
    places.sort_unstable();
    places
}

fn drawn_departures(rng: &mut Rng, windows: &Windows, releases: &[u32]) -> Vec<u32> {
    let longest = rng.pick(&[0, 1, 3, 10]);
    let mut earliest = 0;
    let departure = |&release: &u32| {
        let wish = release.max(earliest).saturating_add(rng.within(0, longest));
        let open = windows.from.iter().zip(&windows.to).filter(|(_, &to)| wish <= to);
        let departure = open.map(|(&from, _)| wish.max(from)).min().unwrap_or(wish);
        let departure = if rng.one_in(40) { departure.saturating_sub(1) } else { departure };
        earliest = departure.saturating_add(windows.gap);
        departure
    };
    releases.iter().map(departure).collect()
}

/// A plan for n orders and q trains whose numbers have little to do with each other: small, beside an end of their range, or any.
pub fn wild(rng: &mut Rng, n: usize, q: usize) -> ForeignPlan {
    let mut number = |most: usize| match rng.index(24) {
        0 => 0,
        1 => most as u32 + 1,
        2 => rng.within(0, u32::MAX),
        _ => rng.within(1, most.max(1) as u32),
    };
    let mut departures: Vec<u32> = (0..q).map(|_| number(30)).collect();
    let trains: Vec<u32> = (0..n).map(|_| number(q)).collect();
    let orders: Vec<u32> = (0..n).map(|_| number(n)).collect();
    if !rng.one_in(4) {
        departures.sort_unstable();
    }
    let by_turn = !rng.one_in(4);
    let order = |(turn, order): (u32, u32)| if by_turn { turn } else { order };
    let orders = (1..).zip(orders).map(order);
    ForeignPlan { departures, rows: orders.zip(trains).map(|(order, train)| Row { order, train }).collect() }
}
