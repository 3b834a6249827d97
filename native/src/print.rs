//! The printed plan, from a sheet's text.

use crate::checking::{Checked, ForeignPlan};
use crate::gone::Gone;
use crate::plan::{Entry, Listing, Plan};
use crate::reader::Reading;
use crate::refusal::Refusal;
use crate::sheet::{Form, Sheet};
use crate::{checking, planner, reader, replan, watching};
use std::fmt::Write;
use std::ops::Range;

/// What the program `plan` reads at most.
pub const LONGEST_TEXT: usize = 65_536;

/// The calls that printing takes, the checking call, the one that says how long the list may be, a watched search, of which the plan that stands in the
/// areas after each round is given, with the pair recorded last, and the two calls that plan anew.
pub struct Implementation {
    pub read: fn(&[u8], Form) -> Result<Reading, Refusal>,
    pub list: fn(&Sheet) -> Result<Listing, Refusal>,
    pub choose: fn(&Sheet, u32) -> Result<Entry, Refusal>,
    pub check: fn(&Sheet, &ForeignPlan) -> Result<Checked, Refusal>,
    pub bound: fn(&Sheet) -> Result<usize, Refusal>,
    pub watch: fn(&Sheet) -> Vec<Entry>,
    pub relist: fn(&Sheet, &Gone) -> Result<Listing, Refusal>,
    pub rechoose: fn(&Sheet, &Gone, u32) -> Result<Entry, Refusal>,
}

pub const INDEPENDENT: Implementation = Implementation {
    read: reader::read,
    list: planner::list,
    choose: planner::choose,
    check: checking::check,
    bound: planner::bound,
    watch: watching::watch,
    relist: replan::relist,
    rechoose: replan::rechoose,
};

/// What the program `plan` prints for this standard input, by the independent implementation.
pub fn print(text: &[u8]) -> String {
    print_by(&INDEPENDENT, text)
}

/// The same, by either implementation.
pub fn print_by(implementation: &Implementation, text: &[u8]) -> String {
    let text = &text[..text.len().min(LONGEST_TEXT)];
    lines_by(implementation, text).unwrap_or_else(|Refusal { number, returned }| format!("E,{number},{returned}\n"))
}

/// The plan is the one of the last listed arrival.
fn lines_by(implementation: &Implementation, text: &[u8]) -> Result<String, Refusal> {
    let Reading { sheet, names } = (implementation.read)(text, Form::of(text))?;
    let listing = (implementation.list)(&sheet)?;
    let wish = listing.pairs.last().expect("a listed pair").arrival;
    let chosen = (implementation.choose)(&sheet, wish)?;
    Ok(plan_lines(&listing, &chosen.plan, text, &names))
}

fn plan_lines(listing: &Listing, plan: &Plan, text: &[u8], names: &[Range<usize>]) -> String {
    let mut out = String::new();
    for pair in &listing.pairs {
        writeln!(out, "P,{},{}", pair.arrival, pair.lateness).unwrap();
    }
    for (i, times) in plan.times.iter().enumerate() {
        writeln!(out, "D,{},{},{},{}", i + 1, times.departure, times.arrival, times.window).unwrap();
    }
    for (name, train) in names.iter().zip(&plan.train_of_order) {
        let name = std::str::from_utf8(&text[name.clone()]).expect("names are ASCII");
        writeln!(out, "L,{name},{train}").unwrap();
    }
    writeln!(out, "R,{}", listing.rounds).unwrap();
    out
}
