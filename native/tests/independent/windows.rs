//! The windows of the departures: known ones of sheets written by hand, and those of every plan of drawn and stored sheets.

use native::booking::is_booked;
use native::cases::{sheet_of, CASE_A, CASE_H};
use native::draw::{big, drawn_size, small};
use native::limits::{MOST_TRAINS, MOST_WINDOWS};
use native::plan::Times;
use native::planner::choose;
use native::reader::read;
use native::rng::Rng;
use native::search::search;
use native::sheet::{Form, Paths, Sheet, Windows, FORMS};
use native::stored::stored_sheets;

/// Departure and window of each train: trains of one place, and train i carries the i-th of the releases, which rise.
fn departures(gap: u32, windows: &[(u32, u32)], releases: &[u32]) -> Vec<(u32, u32)> {
    let mut text = format!("G,{gap}\n");
    windows.iter().for_each(|(from, to)| text += &format!("W,{from},{to}\n"));
    text += &"T,1,1\n".repeat(releases.len());
    releases.iter().for_each(|release| text += &format!("O,A,{release},0,1\n"));
    let plan = choose(&sheet_of(&text), u32::MAX).unwrap().plan;
    plan.times.iter().map(|train| (train.departure, train.window)).collect()
}

#[test]
fn ends_of_a_window() {
    let windows = [(10, 20), (30, 40)];
    assert_eq!(departures(1, &windows, &[0]), [(10, 1)], "the first minute, waited for");
    assert_eq!(departures(1, &windows, &[10]), [(10, 1)], "the first minute");
    assert_eq!(departures(1, &windows, &[19]), [(19, 1)]);
    assert_eq!(departures(1, &windows, &[20]), [(20, 1)], "the last minute");
    assert_eq!(departures(1, &windows, &[40]), [(40, 2)], "the last minute of the last window");
    assert_eq!(
        departures(10, &windows, &[0, 0, 0]),
        [(10, 1), (20, 1), (30, 2)],
        "the last minute and the first, by the gap"
    );
}

#[test]
fn waiting_for_a_later_window() {
    let windows = [(10, 20), (30, 40), (50, 60)];
    assert_eq!(departures(1, &windows, &[21]), [(30, 2)], "released a minute after window 1");
    assert_eq!(departures(1, &windows, &[15, 41]), [(15, 1), (50, 3)]);
    assert_eq!(
        departures(11, &windows, &[0, 0, 0]),
        [(10, 1), (30, 2), (50, 3)],
        "a minute after the window, by the gap"
    );
    assert_eq!(departures(20, &windows, &[15, 15, 15]), [(15, 1), (35, 2), (55, 3)]);
}

#[test]
fn several_trains_in_a_window() {
    assert_eq!(departures(3, &[(0, 9), (20, 29)], &[0; 6]), [(0, 1), (3, 1), (6, 1), (9, 1), (20, 2), (23, 2)]);
}

/// The next window begins a minute after the one before it ends.
#[test]
fn neighbouring_windows() {
    let windows = [(0, 4), (5, 9), (10, 12)];
    assert_eq!(departures(1, &windows, &[4, 4]), [(4, 1), (5, 2)]);
    assert_eq!(departures(1, &windows, &[5, 9, 10]), [(5, 2), (9, 2), (10, 3)]);
    assert_eq!(departures(4, &windows, &[0; 4]), [(0, 1), (4, 1), (8, 2), (12, 3)]);
    assert_eq!(departures(5, &windows, &[0; 3]), [(0, 1), (5, 2), (10, 3)]);
}

#[test]
fn windows_of_one_minute() {
    assert_eq!(departures(1, &[(7, 7), (9, 9)], &[0, 0]), [(7, 1), (9, 2)]);
    assert_eq!(departures(1, &[(7, 7), (9, 9)], &[8]), [(9, 2)]);
    assert_eq!(departures(1, &[(0, 0), (1, 1), (2, 2)], &[0; 3]), [(0, 1), (1, 2), (2, 3)], "neighbours");
}

#[test]
fn windows_passed_over() {
    let windows = [(0, 0), (2, 2), (4, 5), (8, 8), (10, 19)];
    assert_eq!(departures(1, &windows, &[6]), [(8, 4)], "three from the start");
    assert_eq!(departures(1, &windows, &[0, 11]), [(0, 1), (11, 5)], "three by a release");
    assert_eq!(departures(9, &windows, &[1, 1]), [(2, 2), (11, 5)], "two by the gap");
}

#[test]
fn the_last_of_64_windows() {
    let windows: Vec<(u32, u32)> = (0..MOST_WINDOWS as u32).map(|i| (10 * i, 10 * i + 5)).collect();
    assert_eq!(departures(1, &windows, &[0, 625]), [(0, 1), (625, 63)]);
    assert_eq!(departures(1, &windows, &[0, 626]), [(0, 1), (630, 64)]);
    assert_eq!(departures(1, &windows, &[635]), [(635, 64)]);
    let every_second: Vec<(u32, u32)> = (1..=MOST_TRAINS as u32).map(|i| (20 * i - 10, 2 * i)).collect();
    assert_eq!(departures(20, &windows, &[10; MOST_TRAINS]), every_second);
}

/// Whether case a or h is told right after a change of the plan's first train.
fn booked_after(text: &str, change: impl Fn(&mut Times)) -> bool {
    let sheet = sheet_of(text);
    let mut times = choose(&sheet, u32::MAX).unwrap().plan.times;
    change(&mut times[0]);
    is_booked(&sheet, &times)
}

#[test]
fn wrong_windows_are_seen() {
    assert!(booked_after(CASE_A, |_| ()));
    assert!([0, 2, 3].iter().all(|&window| !booked_after(CASE_A, |train| train.window = window)));
    assert!(!booked_after(CASE_A, |train| train.departure = 101), "between the windows");
    assert!(!booked_after(CASE_A, |train| train.departure = 150), "in window 2");
    assert!(booked_after(CASE_H, |_| ()));
    assert!(!booked_after(CASE_H, |train| train.window = 1), "0 in the timetable form");
}

/// What departures show, each counted: a window's first minute, and its last; a window of one minute; one that begins a minute after the one
/// before it ends; windows passed over since the train ahead; the sheet's last window.
type Met = [usize; 6];

fn meet(met: &mut Met, windows: &Windows, ahead: u32, train: &Times) {
    let at = train.window as usize - 1;
    let (from, to) = (windows.from[at], windows.to[at]);
    let shown = [
        train.departure == from,
        train.departure == to,
        from == to,
        at > 0 && windows.to[at - 1] + 1 == from,
        train.window > ahead + 1,
        at + 1 == windows.to.len(),
    ];
    met.iter_mut().zip(shown).for_each(|(count, shown)| *count += usize::from(shown));
}

/// Every plan that is chosen by a listed arrival tells its windows.
fn check(sheet: &Sheet, met: &mut Met) {
    let Ok(recorded) = search(sheet) else { return };
    for entry in &recorded.entries {
        let times = &recorded.chosen(entry.pair.arrival).expect("a listed arrival").plan.times;
        assert!(is_booked(sheet, times), "{times:?} {sheet:?}");
        if let Paths::Windows(windows) = &sheet.paths {
            let ahead = [0].into_iter().chain(times.iter().map(|train| train.window));
            ahead.zip(times).for_each(|(ahead, train)| meet(met, windows, ahead, train));
        }
    }
}

#[test]
fn drawn_sheets() {
    let mut rng = Rng::new(9);
    let mut met = Met::default();
    for form in FORMS {
        (0..10_000).for_each(|_| check(&small(&mut rng, form, 12), &mut met));
        for _ in 0..400 {
            let (n, q) = drawn_size(&mut rng);
            check(&big(&mut rng, form, n, q), &mut met);
        }
    }
    assert!(met.iter().all(|&count| count > 1_000), "{met:?}");
}

#[test]
fn every_stored_sheet() {
    let mut met = Met::default();
    for stored in stored_sheets() {
        if let Ok(reading) = read(&stored.text, Form::of(&stored.text)) {
            check(&reading.sheet, &mut met);
        }
    }
    assert!(met.iter().all(|&count| count > 40), "{met:?}");
}
