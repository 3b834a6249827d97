//! The tests of a sheet in memory.

use crate::limits::*;
use crate::refusal::*;
use crate::sheet::{Orders, Paths, Sheet, Timetable, Windows};

/// Tests 4, 5, 2, 6, 7, each over the whole sheet.
pub fn admit(sheet: &Sheet) -> Result<(), Refusal> {
    let tests = [
        (TOO_MANY, few(sheet)),
        (KIND_MISSING, complete(sheet)),
        (OUT_OF_RANGE, in_range(sheet)),
        (OUT_OF_ORDER, in_order(sheet)),
        (TOO_FEW_PLACES, sheet.spare_places().is_some()),
    ];
    match tests.iter().find(|(_, passed)| !passed) {
        Some(&(number, _)) => Err(Refusal::of_all(number)),
        None => Ok(()),
    }
}

fn few(sheet: &Sheet) -> bool {
    let (n, q) = sheet.size();
    let few_windows = match &sheet.paths {
        Paths::Windows(windows) => windows.from.len() <= MOST_WINDOWS,
        Paths::Timetable(_) => true,
    };
    few_windows && q <= MOST_TRAINS && n <= MOST_ORDERS
}

fn complete(sheet: &Sheet) -> bool {
    let (n, q) = sheet.size();
    let some_window = match &sheet.paths {
        Paths::Windows(windows) => !windows.from.is_empty(),
        Paths::Timetable(_) => true,
    };
    some_window && q > 0 && n > 0
}

fn in_range(sheet: &Sheet) -> bool {
    let paths_in_range = match &sheet.paths {
        Paths::Windows(Windows { gap, from, to, running }) => {
            GAP.contains(gap)
                && from.iter().chain(to).all(|instant| INSTANT.contains(instant))
                && running.iter().all(|time| RUNNING.contains(time))
        }
        Paths::Timetable(Timetable { departure, arrival }) => {
            departure.iter().all(|instant| INSTANT.contains(instant)) && arrival.iter().all(|end| ARRIVAL.contains(end))
        }
    };
    paths_in_range && sheet.capacity.iter().all(|places| CAPACITY.contains(places)) && orders_in_range(&sheet.orders)
}

fn orders_in_range(Orders { release, due, weight }: &Orders) -> bool {
    release.iter().chain(due).all(|instant| INSTANT.contains(instant)) && weight.iter().all(|w| WEIGHT.contains(w))
}

fn in_order(sheet: &Sheet) -> bool {
    match &sheet.paths {
        Paths::Windows(Windows { from, to, .. }) => {
            let apart = to.iter().zip(from.iter().skip(1)).all(|(to, next_from)| to < next_from);
            from.iter().zip(to).all(|(from, to)| from <= to) && apart
        }
        Paths::Timetable(Timetable { departure, arrival }) => {
            let rising = |column: &[u32]| column.windows(2).all(|next| next[0] < next[1]);
            departure.iter().zip(arrival).all(|(s, f)| s < f) && rising(departure) && rising(arrival)
        }
    }
}
