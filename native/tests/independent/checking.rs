//! Plans from elsewhere: those of document 01's cases, our own, damaged, drawn and shuffled ones, and every plan of small sheets.

use crate::areas::{late, too_few_places, GUARD_PAIR};
use crate::judge::judged;
use native::cases::{sheet_of, with, CASE_A, CASE_H};
use native::checking::{check, check_by, check_in, Checked, ForeignPlan, Row};
use native::draw::{big, drawn_size, small};
use native::every_plan::{check_every_plan, plan_count, Tally};
use native::foreign::{damaged, drawn, shuffled, wild};
use native::plan::{Listing, Pair};
use native::planner::{list, Counts};
use native::print::INDEPENDENT;
use native::reader::read;
use native::refusal::*;
use native::rng::Rng;
use native::search::{search, Recorded};
use native::sheet::{Form, Sheet, FORMS};
use native::stored::stored_sheets;
use std::ops::RangeInclusive;

/// The departures, and the order and train of each row.
fn plan(departures: &[u32], rows: &[(u32, u32)]) -> ForeignPlan {
    let rows = rows.iter().map(|&(order, train)| Row { order, train }).collect();
    ForeignPlan { departures: departures.to_vec(), rows }
}

/// The departures and the trains of orders 1 to 3, on cases a and h and their like.
fn said<const Q: usize>(text: &str, departures: [u32; Q], trains: [u32; 3]) -> Result<(u32, i64, bool), usize> {
    let rows: Vec<(u32, u32)> = (1..).zip(trains).collect();
    match check(&sheet_of(text), &plan(&departures, &rows)) {
        Ok(Checked { pair, listed, counts }) => {
            assert_eq!(Ok((counts.pairs, counts.rounds)), list(&sheet_of(text)).map(|l| (l.pairs.len(), l.rounds)));
            Ok((pair.arrival, pair.lateness, listed))
        }
        Err(Refusal { number, returned }) => {
            assert_eq!(returned, 0);
            Err(number)
        }
    }
}

#[test]
fn of_case_a() {
    let (by_release, by_weight) = ([1, 2, 2], [2, 1, 2]);
    assert_eq!(said(CASE_A, [0, 90], by_release), Ok((110, 150, true)));
    assert_eq!(said(CASE_A, [40, 100], by_weight), Ok((130, 70, true)));
    assert_eq!(said(CASE_A, [10, 95], by_release), Ok((115, 165, false)));
    assert_eq!(said(CASE_A, [30, 90], by_release), Ok((120, 180, false)), "60 minutes behind train 1");
    assert_eq!(said(CASE_A, [20, 90], by_release), Ok((110, 150, true)), "a later train 1, but the same pair");
    assert_eq!(said(CASE_A, [40, 150], by_weight), Ok((170, 110, false)), "window 2 opens");
    assert_eq!(said(CASE_A, [40, 200], by_weight), Ok((220, 160, false)), "the last minute");
    assert_eq!(said(CASE_A, [100, 200], by_weight), Ok((220, 210, false)));
    assert_eq!(said(CASE_A, [0, 89], by_release), Err(RULE_BROKEN), "C is released at 90");
    assert_eq!(said(CASE_A, [39, 100], by_weight), Err(RULE_BROKEN), "B is released at 40");
    assert_eq!(said(CASE_A, [40, 99], by_weight), Err(RULE_BROKEN), "59 minutes behind train 1");
    assert_eq!(said(CASE_A, [90, 40], [2, 2, 1]), Err(RULE_BROKEN), "train 2 ahead of train 1");
    assert_eq!(said(CASE_A, [40, 101], by_weight), Err(RULE_BROKEN), "a minute behind window 1");
    assert_eq!(said(CASE_A, [40, 149], by_weight), Err(RULE_BROKEN), "a minute before window 2");
    assert_eq!(said(CASE_A, [40, 201], by_weight), Err(RULE_BROKEN), "a minute behind window 2");
    assert_eq!(said(CASE_A, [150, 200], [1, 1, 2]), Err(RULE_BROKEN), "train 1 has one place, train 2 has two");
    assert_eq!(said(CASE_A, [100, 200], [2, 2, 2]), Err(RULE_BROKEN), "train 2 has two places");
    assert_eq!(said(CASE_A, [u32::MAX; 2], by_release), Err(RULE_BROKEN));
    assert_eq!(
        said(CASE_A, [u32::MAX - 59, 90], by_release),
        Err(RULE_BROKEN),
        "a gap behind it is 0 again in 32 bits"
    );
    assert_eq!(said(CASE_A, [0, 90], [1, 2, 0]), Err(WRONG_ROWS));
    assert_eq!(said(CASE_A, [0, 90], [1, 2, 3]), Err(WRONG_ROWS));
    assert_eq!(said(CASE_A, [0, 90], [1, 2, 258]), Err(WRONG_ROWS));
    assert_eq!(said(CASE_A, [0, 0], [1, 2, u32::MAX]), Err(WRONG_ROWS), "and there is no gap");
}

/// The pair that the rounds recorded first and replaced is not listed.
#[test]
fn of_case_b() {
    let case_b = with(CASE_A, "G,60", "G,10");
    assert_eq!(said(&case_b, [0, 90], [1, 2, 2]), Ok((110, 150, false)));
    assert_eq!(said(&case_b, [40, 90], [2, 1, 2]), Ok((110, 50, true)));
}

#[test]
fn of_case_h() {
    assert_eq!(said(CASE_H, [50, 95], [2, 1, 2]), Ok((120, 60, true)));
    assert_eq!(said(CASE_H, [50, 95], [1, 2, 2]), Ok((120, 180, false)));
    assert_eq!(said(CASE_H, [50, 95], [2, 2, 1]), Err(RULE_BROKEN), "C is released at 90");
    assert_eq!(said(CASE_H, [50, 95], [1, 1, 2]), Err(RULE_BROKEN), "train 1 has one place");
    assert_eq!(said(CASE_H, [50, 96], [2, 1, 2]), Err(RULE_BROKEN), "the timetable says 95");
    assert_eq!(said(CASE_H, [49, 95], [2, 1, 2]), Err(RULE_BROKEN), "the timetable says 50");
    assert_eq!(said(CASE_H, [95, 50], [2, 1, 2]), Err(RULE_BROKEN));
    assert_eq!(said(CASE_H, [50, 96], [2, 1, 3]), Err(WRONG_ROWS));
}

/// Three trains of two places for three orders: an empty train keeps gap and windows, and decides the last arrival where it is the last.
#[test]
fn of_short_trains() {
    let empty = include_str!("../../../examples/empty.sheet");
    assert_eq!(said(empty, [40, 100, 160], [1, 1, 2]), Ok((190, 30, true)), "train 3 is empty");
    assert_eq!(said(empty, [0, 60, 150], [2, 2, 3]), Ok((170, 90, true)), "train 1 is empty");
    assert_eq!(said(empty, [0, 90, 150], [1, 2, 2]), Ok((170, 150, false)), "train 3 is empty");
    assert_eq!(said(empty, [0, 60, 150], [2, 3, 3]), Ok((170, 330, false)));
    assert_eq!(said(empty, [40, 100, 200], [1, 1, 2]), Ok((220, 30, false)), "train 3, empty, leaves late");
    assert_eq!(said(empty, [40, 100, 159], [1, 1, 2]), Err(RULE_BROKEN), "59 minutes behind train 2");
    assert_eq!(said(empty, [40, 100, 201], [1, 1, 2]), Err(RULE_BROKEN), "a minute behind window 2");
    assert_eq!(said(empty, [30, 89, 150], [1, 3, 3]), Err(RULE_BROKEN), "train 2, empty, 59 minutes behind train 1");
    assert_eq!(said(empty, [100, 160, 0], [1, 1, 2]), Err(RULE_BROKEN), "train 3, empty, ahead of the others");
    assert_eq!(said(empty, [0, 60, 150], [3, 3, 3]), Err(RULE_BROKEN), "three orders on train 3");
    assert_eq!(said(empty, [40, 100], [1, 1, 2]), Err(WRONG_ROWS), "an empty train has a departure too");
    let close = with(empty, "G,60", "G,10");
    assert_eq!(said(&close, [100, 155, 170], [2, 2, 3]), Ok((190, 345, false)), "train 1, empty, leaves late");
    assert_eq!(said(&close, [101, 155, 170], [2, 2, 3]), Err(RULE_BROKEN), "a minute behind window 1");
}

/// In the timetable form an empty train leaves as fixed.
#[test]
fn of_a_short_timetable() {
    let third = with(CASE_H, "X,2,95,120\n", "X,2,95,120\nX,3,96,300\n");
    assert_eq!(said(&third, [50, 95, 96], [2, 1, 2]), Ok((300, 60, true)), "train 3 is empty");
    assert_eq!(said(&third, [50, 95, 96], [3, 3, 3]), Ok((300, 720, false)), "trains 1 and 2 are empty");
    assert_eq!(said(&third, [50, 95, 97], [2, 1, 2]), Err(RULE_BROKEN), "the timetable says 96");
    assert_eq!(said(&third, [50, 95, 96], [2, 2, 2]), Err(RULE_BROKEN), "train 2 has two places");
}

/// The answer with an area of this length, filled with guards; where it is a refusal, nothing is written.
pub fn check_guarded(sheet: &Sheet, plan: &ForeignPlan, length: usize) -> Result<(Checked, Vec<Pair>), usize> {
    let mut pairs = vec![GUARD_PAIR; length];
    match check_in(sheet, plan, &mut pairs) {
        Ok(checked) => Ok((checked, pairs)),
        Err(refusal) => {
            assert_eq!((refusal.returned, pairs), (0, vec![GUARD_PAIR; length]));
            Err(refusal.number)
        }
    }
}

/// The refusals of the sheet, 10, 12, 13; there is no 8, since 13 comes before the list. Two pairs are the figure.
#[test]
fn refusals_in_turn() {
    let good = sheet_of(CASE_A);
    let (too_few_places, late) = (too_few_places(), late());
    let by_release = plan(&[0, 90], &[(1, 1), (2, 2), (3, 2)]);
    let no_gap = plan(&[90, 90], &[(1, 1), (2, 2), (3, 2)]);
    let twice = plan(&[0, 90], &[(1, 1), (2, 2), (2, 2)]);
    let twice_no_gap = plan(&[90, 90], &[(1, 1), (2, 2), (2, 2)]);
    let three_trains = plan(&[0, 90, 150], &[(1, 1), (2, 2), (3, 2)]);
    let nothing = ForeignPlan::default();
    for (sheet, plan, length, number) in [
        (&too_few_places, &nothing, 0, TOO_FEW_PLACES),
        (&too_few_places, &by_release, 6, TOO_FEW_PLACES),
        (&good, &by_release, 1, AREA_TOO_SHORT),
        (&good, &by_release, 0, AREA_TOO_SHORT),
        (&good, &no_gap, 1, AREA_TOO_SHORT),
        (&good, &twice, 1, AREA_TOO_SHORT),
        (&good, &nothing, 1, AREA_TOO_SHORT),
        (&late, &by_release, 1, AREA_TOO_SHORT),
        (&good, &nothing, 2, WRONG_ROWS),
        (&good, &twice, 2, WRONG_ROWS),
        (&good, &twice_no_gap, 2, WRONG_ROWS),
        (&good, &three_trains, 2, WRONG_ROWS),
        (&late, &twice, 2, WRONG_ROWS),
        (&good, &no_gap, 2, RULE_BROKEN),
        (&late, &by_release, 2, RULE_BROKEN),
        (&late, &no_gap, 2, RULE_BROKEN),
    ] {
        assert_eq!(check_guarded(sheet, plan, length), Err(number), "{plan:?} {length}");
    }
}

/// The area holds the list as listing leaves it, whether or not the plan's pair is listed.
#[test]
fn only_first_elements_written() {
    let (good, counts) = (sheet_of(CASE_A), Counts { pairs: 2, rounds: 2 });
    let list = [Pair { arrival: 110, lateness: 150 }, Pair { arrival: 130, lateness: 70 }];
    for (departures, pair, listed) in
        [([0, 90], list[0], true), ([10, 95], Pair { arrival: 115, lateness: 165 }, false)]
    {
        let plan = plan(&departures, &[(3, 2), (1, 1), (2, 2)]);
        for length in [2, 3, 9] {
            let (checked, pairs) = check_guarded(&good, &plan, length).unwrap();
            assert_eq!(checked, Checked { pair, listed, counts });
            assert_eq!(pairs, [&list[..], &vec![GUARD_PAIR; length - 2]].concat());
        }
    }
}

/// How many plans were said to be what.
#[derive(Debug, Default)]
struct Met {
    listed: usize,
    not_listed: usize,
    wrong_rows: usize,
    rule_broken: usize,
}

impl Met {
    fn meet(&mut self, answer: &Result<Checked, Refusal>) {
        *match answer {
            Ok(Checked { listed: true, .. }) => &mut self.listed,
            Ok(Checked { listed: false, .. }) => &mut self.not_listed,
            Err(Refusal { number: WRONG_ROWS, .. }) => &mut self.wrong_rows,
            Err(Refusal { number: RULE_BROKEN, .. }) => &mut self.rule_broken,
            Err(refusal) => panic!("{refusal:?}"),
        } += 1;
    }

    fn least(&self) -> usize {
        [self.listed, self.not_listed, self.wrong_rows, self.rule_broken].into_iter().min().unwrap()
    }
}

/// An admitted sheet with listing's answer.
struct Checker<'a> {
    sheet: &'a Sheet,
    listed: Result<Listing, Refusal>,
    /// The rounds are made anew for each plan.
    anew: bool,
}

impl Checker<'_> {
    fn check(&self, plan: &ForeignPlan) -> Result<Checked, Refusal> {
        if self.anew {
            check(self.sheet, plan)
        } else {
            check_by(&self.listed, self.sheet, plan)
        }
    }

    /// The call says what the second judge says, whatever the order of the rows; a schedule that is not listed is no better than one that is.
    fn check_plan(&self, plan: &ForeignPlan, rng: &mut Rng, met: &mut Met) -> Result<Checked, Refusal> {
        let answer = self.check(plan);
        met.meet(&answer);
        let pair = answer.map(|checked| checked.pair).map_err(|refusal| refusal.number);
        assert_eq!(pair, judged(self.sheet, plan), "{plan:?} {:?}", self.sheet);
        assert_eq!(self.check(&shuffled(rng, plan)), answer, "{plan:?} {:?}", self.sheet);
        if let Ok(Checked { pair, listed, counts }) = answer {
            let Listing { pairs, rounds } = self.listed.as_ref().expect("there is a schedule");
            let as_good = |other: &&Pair| other.arrival <= pair.arrival && other.lateness <= pair.lateness;
            let better = pairs.iter().find(as_good).expect("a listed pair that is as good");
            assert_eq!(listed, *better == pair, "{plan:?} {:?}", self.sheet);
            assert_eq!((counts.pairs, counts.rounds), (pairs.len(), *rounds), "{plan:?} {:?}", self.sheet);
        }
        answer
    }

    /// Our own plan of a listed pair, and each damage of it.
    fn check_own(&self, pair: Pair, plan: &ForeignPlan, rng: &mut Rng, met: &mut Met) {
        let own = self.check_plan(plan, rng, met).expect("our own plan");
        assert!(own.pair == pair && own.listed, "{plan:?} {:?}", self.sheet);
        for damaged in damaged(rng, self.sheet, plan) {
            let answer = self.check_plan(&damaged.plan, rng, met);
            let number = answer.err().map(|refusal| refusal.number);
            assert!(damaged.number.is_none() || damaged.number == number, "{:?} {:?}", damaged.plan, self.sheet);
        }
    }
}

/// Our own plan of each listed pair of a sheet, damaged ones, drawn ones and wild ones.
fn check_sheet(sheet: &Sheet, anew: bool, rng: &mut Rng, met: &mut Met) {
    let recorded = search(sheet);
    let listed = recorded.as_ref().map(Recorded::listing).map_err(|&refusal| refusal);
    let checker = Checker { sheet, listed, anew };
    for entry in recorded.iter().flat_map(|recorded| &recorded.entries) {
        checker.check_own(entry.pair, &(&entry.plan).into(), rng, met);
    }
    let (n, q) = sheet.size();
    for _ in 0..4 {
        let plans = [drawn(rng, sheet), wild(rng, n, q)];
        plans.iter().for_each(|plan| _ = checker.check_plan(plan, rng, met));
    }
}

#[test]
fn drawn_sheets() {
    let mut rng = Rng::new(10);
    for form in FORMS {
        let mut met = Met::default();
        (0..4_000).for_each(|_| check_sheet(&small(&mut rng, form, 9), true, &mut rng, &mut met));
        for _ in 0..200 {
            let (n, q) = drawn_size(&mut rng);
            check_sheet(&big(&mut rng, form, n, q), false, &mut rng, &mut met);
        }
        assert!(met.least() > 4_000, "{met:?}");
    }
}

#[test]
fn every_stored_sheet() {
    let mut rng = Rng::new(11);
    let mut met = Met::default();
    for stored in stored_sheets() {
        if let Ok(reading) = read(&stored.text, Form::of(&stored.text)) {
            check_sheet(&reading.sheet, false, &mut rng, &mut met);
        }
    }
    assert!(met.least() > 1_000, "{met:?}");
}

/// All plans are gone through where there are few.
#[test]
fn every_plan_of_small_sheets() {
    const PLANS: RangeInclusive<usize> = 100..=6_000;
    let mut rng = Rng::new(12);
    for form in FORMS {
        let mut tally = Tally::default();
        let drawn = std::iter::repeat_with(|| small(&mut rng, form, 5));
        let sheets = drawn.filter(|sheet| PLANS.contains(&plan_count(sheet))).take(300);
        sheets.for_each(|sheet| check_every_plan(&INDEPENDENT, &sheet, &mut tally));
        assert!(tally.differ == 0 && tally.listed.min(tally.not_listed) > 100, "{tally:?}");
    }
}
