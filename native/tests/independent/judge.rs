//! A second opinion on a plan from elsewhere, written otherwise than the checking call: its rows by sorting, its arrivals all at once, and the rest by
//! the test of our own plans. And one on trains that have gone.

use native::checking::{ForeignPlan, Row};
use native::gone::Gone;
use native::plan::{Pair, Plan, Times};
use native::refusal::{RULE_BROKEN, WRONG_ROWS};
use native::schedule::pair_of;
use native::sheet::{Orders, Paths, Sheet, Windows};
use std::collections::BTreeSet;

/// The plan's pair on an admitted sheet, or the number of its refusal.
pub fn judged(sheet: &Sheet, ForeignPlan { departures, rows }: &ForeignPlan) -> Result<Pair, usize> {
    let (n, q) = sheet.size();
    let mut rows = rows.clone();
    rows.sort_by_key(|row| row.order);
    let every_order_once = rows.iter().map(|row| row.order).eq(1..=n as u32);
    let trains: Vec<u32> = (1..=q as u32).collect();
    if departures.len() != q || !every_order_once || !rows.iter().all(|row| trains.contains(&row.train)) {
        return Err(WRONG_ROWS);
    }
    let train_of_order = rows.iter().map(|&Row { train, .. }| train as u8).collect();
    let times = |i: usize| Times { departure: departures[i], arrival: arrival(&sheet.paths, departures, i), window: 0 };
    pair_of(sheet, &Plan { train_of_order, times: (0..q).map(times).collect() }).ok_or(RULE_BROKEN)
}

/// The train at index i is there when the last of the trains up to it is there alone, and a gap later for each train behind that one.
fn arrival(paths: &Paths, departures: &[u32], i: usize) -> u32 {
    let latest = match paths {
        Paths::Windows(windows) => {
            let minutes = |h: usize| u64::from(departures[h]) + u64::from(windows.running[h]);
            (0..=i).map(|h| minutes(h) + (i - h) as u64 * u64::from(windows.gap)).max().expect("a train")
        }
        Paths::Timetable(timetable) => timetable.arrival[i].into(),
    };
    latest.try_into().unwrap_or(u32::MAX)
}

/// Whether a gone part is good: a train remains, and those gone, with the orders gone, are a schedule of a sheet of their own, up to the minute.
pub fn good_gone(sheet: &Sheet, Gone { minute, trains: ForeignPlan { departures, rows } }: &Gone) -> bool {
    let (n, q) = sheet.size();
    let (count, numbers) = (departures.len(), rows.iter().map(|row| row.order).collect::<BTreeSet<u32>>());
    let on_sheet = numbers.iter().all(|order| (1..=n as u32).contains(order));
    if count >= q || numbers.len() < rows.len() || !on_sheet || departures.iter().any(|departure| departure > minute) {
        return false;
    }
    let Paths::Windows(windows) = &sheet.paths else { panic!("a sheet of the window form") };
    let mut orders = Orders::default();
    for j in rows.iter().map(|row| row.order as usize - 1) {
        orders.push(sheet.orders.release[j], sheet.orders.due[j], sheet.orders.weight[j]);
    }
    let running = windows.running[..count].to_vec();
    let paths = Paths::Windows(Windows { running, ..windows.clone() });
    let own = Sheet { capacity: sheet.capacity[..count].to_vec(), paths, orders };
    let rows = (1..).zip(rows).map(|(order, row)| Row { order, train: row.train }).collect::<Vec<Row>>();
    let none = rows.is_empty() && departures.is_empty();
    none || judged(&own, &ForeignPlan { departures: departures.clone(), rows }).is_ok()
}
