//! No train of a given plan is needlessly late: case a, small sheets by every schedule, and drawn and stored sheets of any size.

use native::cases::{sheet_of, CASE_A};
use native::draw::{big, drawn_size, small};
use native::every_plan::plan_count;
use native::ladder::{ladder_timetable, ladder_windows, Ladder};
use native::plan::Entry;
use native::print::{Implementation, INDEPENDENT};
use native::prompt::{least_within, Soonest, Tally};
use native::reader::read;
use native::rng::Rng;
use native::sheet::{Form, Sheet, FORMS};
use native::stored::stored_sheets;
use native::watching::watch;

/// Train 2 leaves at 100 in the plan of (130, 70), since none with a worst lateness below 150 has it leave sooner; in that of (110, 150) it leaves at 90.
#[test]
fn case_a() {
    let sheet = sheet_of(CASE_A);
    let soonest = Soonest::of(&sheet);
    for (lateness, least) in [
        (69, None),
        (70, Some(vec![[40, 70], [100, 130]])),
        (149, Some(vec![[40, 70], [100, 130]])),
        (150, Some(vec![[0, 30], [90, 110]])),
        (i64::MAX, Some(vec![[0, 30], [90, 110]])),
    ] {
        assert_eq!(soonest.within(lateness), least, "{lateness}");
    }
    let mut tally = Tally::default();
    tally.check_small(&INDEPENDENT, &sheet, &soonest);
    assert!(tally.needless == 0 && tally.plans == 4 && tally.waiting == 4, "{tally:?}");
}

fn leaves_a_minute_later(sheet: &Sheet) -> Vec<Entry> {
    let mut plans = watch(sheet);
    plans.iter_mut().for_each(|entry| entry.plan.times[1].departure += 1);
    plans
}

fn arrives_a_minute_later(sheet: &Sheet) -> Vec<Entry> {
    let mut plans = watch(sheet);
    plans.iter_mut().for_each(|entry| entry.plan.times[1].arrival += 1);
    plans
}

/// The plan of the last pair, told beside the first.
fn last_plan_at_once(sheet: &Sheet) -> Vec<Entry> {
    let mut plans = watch(sheet);
    plans[0].plan = plans[1].plan.clone();
    plans
}

/// How many of case a's plans, as this search shows them, are found to be needlessly late.
fn needless(watch: fn(&Sheet) -> Vec<Entry>) -> usize {
    let mut tally = Tally::default();
    tally.check_large(&Implementation { watch, ..INDEPENDENT }, &sheet_of(CASE_A));
    tally.needless
}

#[test]
fn needless_waits_are_found() {
    assert_eq!(needless(watch), 0);
    assert_eq!(needless(leaves_a_minute_later), 2);
    assert_eq!(needless(arrives_a_minute_later), 2);
    assert_eq!(needless(last_plan_at_once), 1);
}

/// Every loading, with every departure in the windows; the passes over the sheet come to the same within each lateness, and within one less than the least.
#[test]
fn small_sheets() {
    const MOST_PLANS: usize = 1_000_000;
    let mut rng = Rng::new(23);
    for (form, count) in [(Form::Windows, 6_000), (Form::Timetable, 1_000)] {
        let mut tally = Tally::default();
        let drawn = std::iter::repeat_with(|| small(&mut rng, form, 6));
        for sheet in drawn.filter(|sheet| plan_count(sheet) <= MOST_PLANS).take(count) {
            let soonest = Soonest::of(&sheet);
            tally.check_small(&INDEPENDENT, &sheet, &soonest);
            let latenesses = soonest.latenesses();
            for lateness in latenesses.iter().copied().chain(latenesses.first().map(|least| least - 1)) {
                assert_eq!(least_within(&sheet, lateness), soonest.within(lateness), "{lateness} {sheet:?}");
            }
        }
        tally.print(&format!("independent planner, {form:?}"));
        assert!(tally.needless == 0 && tally.plans > count / 2 && tally.empty > count / 4, "{tally:?}");
        let waiting = if form == Form::Windows { tally.waiting > count / 5 } else { tally.waiting == 0 };
        assert!(waiting, "{tally:?}");
    }
}

fn check_large(sheets: impl Iterator<Item = Sheet>, what: &str) {
    let mut tally = Tally::default();
    sheets.for_each(|sheet| tally.check_large(&INDEPENDENT, &sheet));
    tally.print(&format!("independent planner, {what}"));
    assert!(tally.needless == 0 && tally.empty.min(tally.waiting) > tally.sheets, "{tally:?}");
}

#[test]
fn drawn_sheets() {
    let mut rng = Rng::new(24);
    let mut sheets = Vec::new();
    for turn in 0..400 {
        let (n, q) = drawn_size(&mut rng);
        sheets.push(big(&mut rng, FORMS[turn % 2], n, q));
    }
    for (release, stir) in [(0, 0), (300, 3), (3_000, 50)] {
        let ladder = Ladder { release, stir, shuffled: stir > 0 };
        sheets.push(ladder_windows(&mut rng, 60, 12, ladder, 300));
        sheets.push(ladder_timetable(&mut rng, 60, 12, ladder));
    }
    check_large(sheets.into_iter(), "drawn");
}

#[test]
fn every_stored_sheet() {
    let read = stored_sheets().into_iter().filter_map(|stored| read(&stored.text, Form::of(&stored.text)).ok());
    check_large(read.map(|reading| reading.sheet), "stored");
}
