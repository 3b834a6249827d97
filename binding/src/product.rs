//! The product as an implementation beside the independent one: the same calls, with the same types.

use crate::areas::{CheckAreas, PairsArea, PlanAreas, ReadAreas, SearchAreas};
use crate::calls::{self, look, name_in_timetable, name_in_windows, read_timetable, read_windows, Cause, NamePlace};
use crate::exported::ExportedSheet;
use native::checking::{Checked, ForeignPlan};
use native::gone::Gone;
use native::plan::{times_in, Entry, Listing, Pair, Plan};
use native::planner::Counts;
use native::print::Implementation;
use native::reader::Reading;
use native::refusal::Refusal;
use native::sheet::{Form, Sheet};
use std::ops::Range;

pub const PRODUCT: Implementation = Implementation { read, list, choose, check, bound, watch, relist, rechoose };

fn passed(cause: Cause) -> Result<(), Refusal> {
    match cause.number {
        0 => Ok(()),
        number => Err(Refusal { number, returned: cause.returned }),
    }
}

/// The place of an order's name in a text taken as of this form.
pub fn name_place(text: &[u8], form: Form, order: usize) -> Range<usize> {
    let NamePlace { start, length } = match form {
        Form::Windows => name_in_windows(text, order),
        Form::Timetable => name_in_timetable(text, order),
    };
    start..start + length
}

fn read(text: &[u8], form: Form) -> Result<Reading, Refusal> {
    let sheet: Sheet = match form {
        Form::Windows => {
            let read = read_windows(text);
            passed(read.cause)?;
            (&read.sheet).into()
        }
        Form::Timetable => {
            let read = read_timetable(text);
            passed(read.cause)?;
            (&read.sheet).into()
        }
    };
    let names = (1..=sheet.orders.len()).map(|order| name_place(text, form, order)).collect();
    Ok(Reading { sheet, names })
}

fn bound(sheet: &Sheet) -> Result<usize, Refusal> {
    let bound = ExportedSheet::from(sheet).bound();
    passed(bound.cause)?;
    Ok(bound.most)
}

/// As long as the product's own call says beforehand; nothing for a sheet that it refuses, as each call does then.
fn pairs_length(sheet: &ExportedSheet) -> usize {
    PairsArea::length_of(sheet.bound().most)
}

fn list(sheet: &Sheet) -> Result<Listing, Refusal> {
    let exported = ExportedSheet::from(sheet);
    let mut area = PairsArea::of_length(pairs_length(&exported));
    let listing = exported.list_in(&mut area);
    listing_in(listing, &area)
}

/// The pairs at the front of the area.
fn listing_in(listing: calls::Listing, area: &PairsArea) -> Result<Listing, Refusal> {
    passed(listing.cause)?;
    let pairs = area.first(PairsArea::length_of(listing.pairs)).chunks(2).map(pair_in).collect();
    Ok(Listing { pairs, rounds: listing.rounds })
}

/// The pair of two numbers of an area.
fn pair_in(numbers: &[i64]) -> Pair {
    let arrival = u32::try_from(numbers[0]).expect("an arrival is a time of day");
    Pair { arrival, lateness: numbers[1] }
}

fn choose(sheet: &Sheet, wish: u32) -> Result<Entry, Refusal> {
    let mut areas = PlanAreas::of_lengths(PlanAreas::least(sheet));
    let choice = ExportedSheet::from(sheet).choose_in(wish, &mut areas);
    entry_in(choice, sheet, &areas)
}

/// The chosen pair with the plan at the front of the areas.
fn entry_in(choice: calls::Choice, sheet: &Sheet, areas: &PlanAreas) -> Result<Entry, Refusal> {
    passed(choice.cause)?;
    Ok(Entry { pair: Pair { arrival: choice.last, lateness: choice.worst }, plan: plan_in(sheet, areas) })
}

/// The plan at the front of the areas.
fn plan_in(sheet: &Sheet, areas: &PlanAreas) -> Plan {
    let [trains, times] = PlanAreas::least(sheet);
    Plan { train_of_order: areas.train_of_order.first(trains).to_vec(), times: times_in(areas.times.first(times)) }
}

fn check(sheet: &Sheet, plan: &ForeignPlan) -> Result<Checked, Refusal> {
    let exported = ExportedSheet::from(sheet);
    let mut areas = CheckAreas::holding(plan, pairs_length(&exported));
    let check = exported.check_in(&mut areas);
    passed(check.cause)?;
    Ok(Checked {
        pair: Pair { arrival: check.last, lateness: check.worst },
        listed: check.listed,
        counts: Counts { pairs: check.pairs, rounds: check.rounds },
    })
}

fn watch(sheet: &Sheet) -> Vec<Entry> {
    let exported = ExportedSheet::from(sheet);
    let mut areas = SearchAreas::of_lengths(SearchAreas::least(sheet));
    let start = exported.start_in(&mut areas);
    if passed(start.cause).is_err() {
        return Vec::new();
    }
    let (mut plans, mut state, mut ended) = (Vec::new(), start.state, false);
    while !ended {
        let round = exported.round_in(&state, &mut areas);
        (state, ended) = (round.state, round.ended);
        let seen = PairsArea::length_of(look(&state, areas.pairs.lent()));
        if let Some(numbers) = areas.pairs.first(seen).chunks(2).last() {
            plans.push(Entry { pair: pair_in(numbers), plan: plan_in(sheet, &areas.plan) });
        }
    }
    plans
}

fn relist(sheet: &Sheet, gone: &Gone) -> Result<Listing, Refusal> {
    let exported = ExportedSheet::from(sheet);
    let mut area = PairsArea::of_length(pairs_length(&exported));
    let listing = exported.relist_in(gone.minute, &mut ReadAreas::holding(&gone.trains), &mut area);
    listing_in(listing, &area)
}

fn rechoose(sheet: &Sheet, gone: &Gone, wish: u32) -> Result<Entry, Refusal> {
    let mut areas = PlanAreas::of_lengths(PlanAreas::least(sheet));
    let mut lent = ReadAreas::holding(&gone.trains);
    let choice = ExportedSheet::from(sheet).rechoose_in(gone.minute, wish, &mut lent, &mut areas);
    entry_in(choice, sheet, &areas)
}
