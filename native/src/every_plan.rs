//! Every plan of a small sheet, each judged by the listing of every schedule.

use crate::checking::{Checked, ForeignPlan, Row};
use crate::listing::{schedules, seen_with_all_departures};
use crate::plan::Listing;
use crate::print::Implementation;
use crate::refusal::*;
use crate::sheet::{Paths, Sheet};

/// How many plans an implementation checked, and to how many of them it said what.
#[derive(Debug, Default)]
pub struct Tally {
    pub plans: usize,
    pub listed: usize,
    pub not_listed: usize,
    pub differ: usize,
}

/// How many plans a sheet has with each order on any train, and each departure up to a minute behind the last permitted one.
pub fn plan_count(sheet: &Sheet) -> usize {
    let (n, q) = sheet.size();
    instants(sheet).saturating_pow(q as u32).saturating_mul(q.saturating_pow(n as u32))
}

fn instants(sheet: &Sheet) -> usize {
    let last = match &sheet.paths {
        Paths::Windows(windows) => windows.to.last(),
        Paths::Timetable(timetable) => timetable.departure.last(),
    };
    *last.expect("a sheet with trains and windows") as usize + 2
}

/// Whether an implementation says yes to the schedules alone, with their pairs, and that those of the front are listed; the others break a rule.
pub fn check_every_plan(implementation: &Implementation, sheet: &Sheet, tally: &mut Tally) {
    let (schedules, front) = (schedules(sheet), seen_with_all_departures(sheet).front());
    let rounds = (implementation.list)(sheet).map_or(0, |Listing { rounds, .. }| rounds);
    for number in 0..plan_count(sheet) {
        let (departures, train) = numbered_plan(sheet, number);
        let rows = rows_from(number, &train);
        let answer = (implementation.check)(sheet, &ForeignPlan { departures: departures.clone(), rows });
        let right = match (answer, schedules.get(&(departures, train))) {
            (Ok(Checked { pair, listed, counts }), Some(own)) => {
                *if listed { &mut tally.listed } else { &mut tally.not_listed } += 1;
                pair == *own && listed == front.contains(own) && (counts.pairs, counts.rounds) == (front.len(), rounds)
            }
            (Err(refusal), None) => refusal == Refusal::of_all(RULE_BROKEN),
            _ => false,
        };
        tally.plans += 1;
        tally.differ += usize::from(!right);
    }
}

/// The departures and the train (from 0) of each order, as digits of the plan's number.
fn numbered_plan(sheet: &Sheet, mut number: usize) -> (Vec<u32>, Vec<usize>) {
    let (n, q) = sheet.size();
    let mut digit = |base: usize| {
        let digit = number % base;
        number /= base;
        digit
    };
    let departures = (0..q).map(|_| digit(instants(sheet)) as u32).collect();
    (departures, (0..n).map(|_| digit(q)).collect())
}

/// The rows of a loading, beginning with another order from plan to plan.
fn rows_from(start: usize, train: &[usize]) -> Vec<Row> {
    let row = |turn: usize| {
        let j = (start + turn) % train.len();
        Row { order: j as u32 + 1, train: train[j] as u32 + 1 }
    };
    (0..train.len()).map(row).collect()
}
