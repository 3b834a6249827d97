//! Plans with places to spare, by hand: which of them are schedules, and how the others are refused.

use crate::checked::Compared;
use native::cases::sheet_of;
use native::checking::{Checked, ForeignPlan, Row};
use native::planner::list;
use native::refusal::*;
use native::rng::Rng;

/// Five places for three orders, which may ride from minutes 0, 40 and 90.
const WINDOWS: &str = "G,20\nW,0,100\nW,150,200\nT,2,30\nT,2,20\nT,1,20\nO,A,0,60,1\nO,B,40,60,3\nO,C,90,200,1\n";
const TIMETABLE: &str = "X,2,40,70\nX,2,90,120\nX,1,150,170\nO,A,0,60,1\nO,B,40,60,3\nO,C,90,200,1\n";

/// What the product says of a plan, which is what the independent implementation says: its pair and whether that is listed, or the refusal.
fn said(text: &str, departures: &[u32], trains: &[u32]) -> Result<(u32, i64, bool), usize> {
    let sheet = sheet_of(text);
    let rows = (1..).zip(trains).map(|(order, &train)| Row { order, train }).collect();
    let plan = ForeignPlan { departures: departures.to_vec(), rows };
    let compared = Compared { sheet: &sheet, listed: list(&sheet) };
    match compared.check_plan(&plan, &mut Rng::new(118)) {
        Ok(Checked { pair, listed, .. }) => Ok((pair.arrival, pair.lateness, listed)),
        Err(refusal) => Err(refusal.number),
    }
}

#[test]
fn short_plans_are_schedules() {
    assert_eq!(said(WINDOWS, &[0, 40, 90], &[1, 2, 3]), Ok((110, 0, true)), "trains 1 and 2 have a place left each");
    assert_eq!(said(WINDOWS, &[0, 40, 90], &[2, 2, 3]), Ok((110, 0, true)), "train 1 is empty");
    assert_eq!(said(WINDOWS, &[40, 60, 90], &[1, 1, 3]), Ok((110, 30, false)), "train 2 is empty");
    assert_eq!(said(WINDOWS, &[40, 90, 150], &[1, 1, 2]), Ok((170, 30, false)), "train 3 is empty");
    assert_eq!(said(TIMETABLE, &[40, 90, 150], &[1, 1, 2]), Ok((170, 30, true)), "train 3 is empty");
    assert_eq!(said(TIMETABLE, &[40, 90, 150], &[2, 2, 3]), Ok((170, 180, false)), "train 1 is empty");
}

#[test]
fn one_order_too_many_though_places_are_left() {
    assert_eq!(said(WINDOWS, &[90, 150, 170], &[1, 1, 1]), Err(RULE_BROKEN), "train 1 has two places");
    assert_eq!(said(WINDOWS, &[0, 40, 90], &[1, 3, 3]), Err(RULE_BROKEN), "train 3 has one place");
    assert_eq!(said(TIMETABLE, &[40, 90, 150], &[2, 2, 2]), Err(RULE_BROKEN), "train 2 has two places");
    assert_eq!(said(TIMETABLE, &[40, 90, 150], &[1, 3, 3]), Err(RULE_BROKEN), "train 3 has one place");
}

#[test]
fn an_order_left_out_though_places_are_left() {
    assert_eq!(said(WINDOWS, &[0, 40, 90], &[1, 2]), Err(WRONG_ROWS));
    assert_eq!(said(WINDOWS, &[0, 40, 90], &[1, 2, 0]), Err(WRONG_ROWS), "there is no train 0");
    assert_eq!(said(TIMETABLE, &[40, 90, 150], &[1, 1]), Err(WRONG_ROWS));
}

#[test]
fn an_empty_train_keeps_to_the_windows() {
    assert_eq!(said(WINDOWS, &[100, 150, 170], &[2, 2, 3]), Ok((190, 330, false)), "train 1 in the last minute");
    assert_eq!(said(WINDOWS, &[101, 150, 170], &[2, 2, 3]), Err(RULE_BROKEN));
    assert_eq!(said(WINDOWS, &[40, 100, 150], &[1, 1, 3]), Ok((170, 30, false)), "train 2 in the last minute");
    assert_eq!(said(WINDOWS, &[40, 101, 150], &[1, 1, 3]), Err(RULE_BROKEN));
    assert_eq!(said(WINDOWS, &[40, 90, 149], &[1, 1, 2]), Err(RULE_BROKEN), "train 3 before the window");
    assert_eq!(said(WINDOWS, &[40, 90, 200], &[1, 1, 2]), Ok((220, 30, false)), "train 3 in the last minute");
    assert_eq!(said(WINDOWS, &[40, 90, 201], &[1, 1, 2]), Err(RULE_BROKEN));
}

#[test]
fn an_empty_train_keeps_its_gap() {
    assert_eq!(said(WINDOWS, &[20, 40, 90], &[2, 2, 3]), Ok((110, 30, false)), "train 1, 20 minutes ahead");
    assert_eq!(said(WINDOWS, &[21, 40, 90], &[2, 2, 3]), Err(RULE_BROKEN));
    assert_eq!(said(WINDOWS, &[40, 59, 90], &[1, 1, 3]), Err(RULE_BROKEN), "train 2, 19 minutes behind train 1");
    assert_eq!(said(WINDOWS, &[40, 70, 90], &[1, 1, 3]), Ok((110, 30, false)), "train 2, 20 minutes ahead of train 3");
    assert_eq!(said(WINDOWS, &[40, 71, 90], &[1, 1, 3]), Err(RULE_BROKEN));
    assert_eq!(said(WINDOWS, &[40, 150, 170], &[1, 1, 2]), Ok((190, 30, false)), "train 3, 20 minutes behind");
    assert_eq!(said(WINDOWS, &[40, 150, 169], &[1, 1, 2]), Err(RULE_BROKEN));
}

#[test]
fn an_empty_train_leaves_as_the_timetable_says() {
    assert_eq!(said(TIMETABLE, &[40, 90, 151], &[1, 1, 2]), Err(RULE_BROKEN));
    assert_eq!(said(TIMETABLE, &[0, 90, 150], &[2, 2, 3]), Err(RULE_BROKEN));
}

#[test]
fn an_empty_train_has_a_departure() {
    assert_eq!(said(WINDOWS, &[40, 90], &[1, 1, 2]), Err(WRONG_ROWS), "train 3 left out");
    assert_eq!(said(WINDOWS, &[40, 90], &[2, 2, 3]), Err(WRONG_ROWS), "train 1 left out");
    assert_eq!(said(TIMETABLE, &[40, 90], &[1, 1, 2]), Err(WRONG_ROWS), "train 3 left out");
}
