//! Sheets in memory: their tests, by each call.

use native::cases::{sheet_of, CASE_A, CASE_H};
use native::checking::{check, ForeignPlan};
use native::limits::*;
use native::planner::{bound, choose, list};
use native::refusal::*;
use native::sheet::{Orders, Paths, Sheet, Timetable, Windows};
use native::watching::Watched;

/// The number with which all calls refuse a sheet, if they do. Wish 0 is before every arrival, and refused after all else.
fn refused(sheet: &Sheet) -> Option<usize> {
    let refusal = bound(sheet).err();
    assert_eq!(list(sheet).err(), refusal);
    assert_eq!(check(sheet, &ForeignPlan::default()).err(), refusal.or(Some(Refusal::of_all(WRONG_ROWS))));
    assert_eq!(choose(sheet, u32::MAX).err(), refusal);
    assert_eq!(choose(sheet, 0).err(), refusal.or(Some(Refusal::of_all(WISH_TOO_EARLY))));
    assert_eq!(Watched::start(sheet, [usize::MAX; 3]).err(), refusal);
    assert_eq!(Watched::start(sheet, [0; 3]).err(), refusal.or(Some(Refusal::of_all(AREA_TOO_SHORT))));
    refusal.map(|refusal| refusal.number)
}

/// The refusal of case a after a change, if it is refused.
fn refused_windows(change: impl Fn(&mut Windows, &mut Vec<u32>, &mut Orders)) -> Option<usize> {
    let mut sheet = sheet_of(CASE_A);
    let Paths::Windows(windows) = &mut sheet.paths else { panic!("case a has windows") };
    change(windows, &mut sheet.capacity, &mut sheet.orders);
    refused(&sheet)
}

/// The same for case h.
fn refused_timetable(change: impl Fn(&mut Timetable, &mut Vec<u32>, &mut Orders)) -> Option<usize> {
    let mut sheet = sheet_of(CASE_H);
    let Paths::Timetable(timetable) = &mut sheet.paths else { panic!("case h has a timetable") };
    change(timetable, &mut sheet.capacity, &mut sheet.orders);
    refused(&sheet)
}

fn orders(count: usize) -> Orders {
    let column = vec![0; count];
    Orders { release: column.clone(), due: column.clone(), weight: column }
}

#[test]
fn window_sheets_are_tested() {
    assert_eq!(refused_windows(|_, _, _| ()), None);
    assert_eq!(refused_windows(|windows, _, _| windows.gap = 0), Some(OUT_OF_RANGE));
    assert_eq!(refused_windows(|windows, _, _| windows.gap = u32::MAX), Some(OUT_OF_RANGE));
    assert_eq!(refused_windows(|windows, _, _| windows.to[0] = 150), Some(OUT_OF_ORDER));
    assert_eq!(refused_windows(|windows, _, _| windows.to[0] = 149), None);
    assert_eq!(refused_windows(|_, capacity, _| capacity[1] = 1), Some(TOO_FEW_PLACES), "one place too few");
    assert_eq!(refused_windows(|_, capacity, _| capacity[0] = 2), None, "one place to spare");
    assert_eq!(refused_windows(|_, capacity, _| capacity.fill(MOST_CAPACITY)), None);
}

/// The whole sheet is gone through for each number in turn.
#[test]
fn tests_in_turn() {
    let refused = refused_windows(|windows, _, orders| {
        windows.to[0] = 150;
        orders.weight[2] = 0;
    });
    assert_eq!(refused, Some(OUT_OF_RANGE));
    let refused = refused_windows(|windows, _, orders| {
        windows.gap = 0;
        *orders = Orders::default();
    });
    assert_eq!(refused, Some(KIND_MISSING));
    let refused = refused_windows(|windows, _, orders| {
        *orders = Orders::default();
        windows.from = vec![0; MOST_WINDOWS + 1];
        windows.to = vec![0; MOST_WINDOWS + 1];
    });
    assert_eq!(refused, Some(TOO_MANY));
    let refused = refused_windows(|windows, capacity, _| {
        capacity[1] = 1;
        windows.from[1] = 100;
    });
    assert_eq!(refused, Some(OUT_OF_ORDER));
    let refused = refused_windows(|_, capacity, orders| {
        capacity[1] = 1;
        orders.release[0] = LAST_INSTANT;
    });
    assert_eq!(refused, Some(TOO_FEW_PLACES));
}

#[test]
fn timetable_sheets_are_tested() {
    assert_eq!(refused_timetable(|_, _, _| ()), None);
    assert_eq!(refused_timetable(|timetable, _, _| timetable.arrival[1] = 80), Some(OUT_OF_ORDER));
    assert_eq!(refused_timetable(|timetable, _, _| timetable.departure[1] = 50), Some(OUT_OF_ORDER));
    assert_eq!(refused_timetable(|timetable, _, _| timetable.departure[0] = 80), Some(OUT_OF_ORDER));
    assert_eq!(refused_timetable(|timetable, _, _| timetable.arrival[0] = 0), Some(OUT_OF_RANGE));
    assert_eq!(refused_timetable(|_, capacity, _| capacity[0] = MOST_CAPACITY + 1), Some(OUT_OF_RANGE));
    assert_eq!(refused_timetable(|_, _, orders| orders.push(0, 0, 1)), Some(TOO_FEW_PLACES), "one place too few");
    assert_eq!(refused_timetable(|_, capacity, _| capacity[1] = 3), None, "one place to spare");
    assert_eq!(refused_timetable(|_, capacity, _| capacity.fill(MOST_CAPACITY)), None);
    assert_eq!(refused_timetable(|_, _, given| *given = orders(MOST_ORDERS + 1)), Some(TOO_MANY));
}

/// No call makes areas as large as such a sheet would need.
#[test]
fn far_beyond_the_limits() {
    const MANY: usize = 1_000_000;
    let refused = refused_windows(|windows, capacity, given| {
        windows.running.resize(MANY, 1);
        capacity.resize(MANY, u32::MAX);
        *given = orders(MANY);
    });
    assert_eq!(refused, Some(TOO_MANY));
    assert_eq!(refused_windows(|_, capacity, _| capacity.fill(u32::MAX)), Some(OUT_OF_RANGE));
    assert_eq!(refused_timetable(|_, capacity, _| capacity.fill(u32::MAX)), Some(OUT_OF_RANGE));
}
