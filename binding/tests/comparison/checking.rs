//! Checking of plans from elsewhere: our own, damaged, drawn and wild ones with their rows in any order, and every plan of small sheets.

use crate::checked::Compared;
use crate::filled::filled;
use crate::share::{any_empty, Share};
use crate::size::Size;
use crate::spoil::spoil;
use binding::areas::CheckAreas;
use binding::calls::{Check, Row};
use binding::product::PRODUCT;
use native::admission::admit;
use native::checking::{self, Checked, ForeignPlan};
use native::draw::small;
use native::every_plan::{check_every_plan, plan_count, Tally};
use native::foreign::{damaged, drawn, shuffled, wild, Damaged};
use native::plan::Entry;
use native::reader::read;
use native::refusal::*;
use native::rng::Rng;
use native::search::{search, Recorded};
use native::sheet::{Form, Sheet, FORMS};
use native::stored::stored_sheets;
use std::mem::{offset_of, size_of};
use std::ops::RangeInclusive;

/// Of a sheet's listed pairs at most about so many have their plans damaged.
const MOST_DAMAGED: usize = 12;

/// The sheets; how many plans were said to be what, by the number of the refusal, 0 for a schedule; and of the schedules, how many are listed, are of a
/// sheet with places to spare, and have an empty train.
#[derive(Debug, Default)]
struct Met {
    share: Share,
    numbers: [usize; NUMBER_COUNT],
    listed: usize,
    to_spare: usize,
    empty_train: usize,
}

impl Met {
    /// The product says of the plan what the independent implementation says.
    fn check(&mut self, compared: &Compared, plan: &ForeignPlan, rng: &mut Rng) -> Result<Checked, Refusal> {
        let answer = compared.check_plan(plan, rng);
        self.numbers[answer.map_or_else(|refusal| refusal.number, |_| 0)] += 1;
        if let Ok(checked) = answer {
            self.listed += usize::from(checked.listed);
            self.to_spare += usize::from(compared.sheet.spare_places() > Some(0));
            self.empty_train += usize::from(has_empty_train(plan));
        }
        answer
    }

    /// More than so many were listed, not listed, of a full sheet, of one with places to spare, with an empty train, and refused with each of these
    /// numbers.
    fn each_above(&self, least: usize, refusals: &[usize]) -> bool {
        let Met { numbers, listed, to_spare, empty_train, .. } = *self;
        let schedules = [listed, numbers[0] - listed, to_spare, numbers[0] - to_spare, empty_train];
        let refused = refusals.iter().map(|&number| numbers[number]);
        refused.chain(schedules).all(|count| count > least)
    }

    fn print(&self, what: &str) {
        let Met { share, numbers, listed, to_spare, empty_train } = self;
        print!("checking, {what}: {} plans compared on {share}; ", numbers.iter().sum::<usize>());
        println!(
            "{} schedules, {listed} of them listed, {to_spare} with places to spare, {empty_train} with an empty train",
            numbers[0]
        );
    }
}

fn has_empty_train(plan: &ForeignPlan) -> bool {
    (1..=plan.departures.len() as u32).any(|train| plan.rows.iter().all(|row| row.train != train))
}

/// A sheet, which is met if it is admitted, with the independent planner's listing of it and the plans of its pairs.
fn compared<'a>(sheet: &'a Sheet, met: &mut Met) -> (Compared<'a>, Vec<Entry>) {
    let admitted = admit(sheet);
    let recorded = admitted.and_then(|()| search(sheet));
    let listed = recorded.as_ref().map(Recorded::listing).map_err(|&refusal| refusal);
    let entries = recorded.map_or(Vec::new(), |recorded| recorded.entries);
    if admitted.is_ok() {
        met.share.meet(sheet, any_empty(&entries));
    }
    (Compared { sheet, listed }, entries)
}

/// Our own plan of each listed pair, which is said to be listed, and damaged ones; and drawn ones.
fn check_sheet(sheet: &Sheet, rng: &mut Rng, met: &mut Met) {
    let (compared, entries) = compared(sheet, met);
    for (at, entry) in entries.iter().enumerate() {
        let own = shuffled(rng, &(&entry.plan).into());
        let answer = met.check(&compared, &own, rng);
        assert!(answer.is_ok_and(|own| own.listed && own.pair == entry.pair), "{own:?} {sheet:?}");
        if at % entries.len().div_ceil(MOST_DAMAGED) == 0 {
            check_damaged(&compared, &own, rng, met);
        }
    }
    check_drawn(&compared, rng, met);
}

/// Each damage of a schedule, with the refusal that it leads to.
fn check_damaged(compared: &Compared, schedule: &ForeignPlan, rng: &mut Rng, met: &mut Met) {
    for Damaged { plan, number } in damaged(rng, compared.sheet, schedule) {
        let met = met.check(compared, &plan, rng).err().map(|refusal| refusal.number);
        assert!(number.is_none() || number == met, "{plan:?} {:?}", compared.sheet);
    }
}

/// A drawn plan, which is often a schedule, and one that is so seldom.
fn check_drawn(compared: &Compared, rng: &mut Rng, met: &mut Met) {
    let (n, q) = compared.sheet.size();
    let plans = [drawn(rng, compared.sheet), wild(rng, n, q)];
    plans.iter().for_each(|plan| _ = met.check(compared, plan, rng));
}

/// As a C compiler lays out what include/joshkamber.h declares, on x86-64.
#[test]
fn layout() {
    assert_eq!((offset_of!(Row, order), offset_of!(Row, train), size_of::<Row>()), (0, 4, 8));
    assert_eq!((offset_of!(Check, cause), offset_of!(Check, last), offset_of!(Check, worst)), (0, 16, 24));
    assert_eq!((offset_of!(Check, listed), offset_of!(Check, pairs), offset_of!(Check, rounds)), (32, 40, 48));
    assert_eq!(size_of::<Check>(), 56);
}

#[test]
fn guards_tell_what_was_written() {
    let row = |order, train| checking::Row { order, train };
    let plan = ForeignPlan { departures: vec![0, 90], rows: vec![row(1, 1), row(2, 2), row(3, 2)] };
    let changed = |change: &dyn Fn(&mut CheckAreas)| {
        let mut areas = CheckAreas::holding(&plan, 12);
        change(&mut areas);
        !areas.plan.hold(&plan)
    };
    assert!(!changed(&|_| ()) && !changed(&|areas| areas.pairs.lent()[0] = 0));
    assert!(changed(&|areas| areas.plan.departures.lent()[1] = 91));
    assert!(changed(&|areas| areas.plan.rows.lent()[2].train = 1));
    assert!(changed(&|areas| areas.plan.rows.lent()[0].order = 2));
}

#[test]
fn random_sheets() {
    let mut rng = Rng::new(108);
    for form in FORMS {
        for (sheets, size, least) in
            [(15_000, Size::UpTo(9), 10_000), (1_500, Size::UpTo(40), 700), (200, Size::Any, 150)]
        {
            let mut met = Met::default();
            (0..sheets).for_each(|_| check_sheet(&size.draw(&mut rng, form), &mut rng, &mut met));
            met.print(&format!("{form:?}, {size}"));
            assert!(met.each_above(least, &[WRONG_ROWS, RULE_BROKEN]) && met.share.is_good(), "{met:?}");
        }
    }
}

#[test]
fn filled_lists() {
    let mut rng = Rng::new(122);
    let mut met = Met::default();
    (0..300).for_each(|_| check_sheet(&filled(&mut rng), &mut rng, &mut met));
    met.print("filled lists");
    assert!(met.each_above(200, &[WRONG_ROWS, RULE_BROKEN]) && met.share.is_good(), "{met:?}");
}

/// A plan of the sheet before it was spoiled, and drawn ones for the spoiled sheet.
#[test]
fn spoiled_sheets() {
    let mut rng = Rng::new(109);
    let mut met = Met::default();
    for turn in 0..30_000 {
        let mut sheet = small(&mut rng, FORMS[turn % 2], 9);
        let plan = drawn(&mut rng, &sheet);
        for _ in 0..rng.within(1, 3) {
            spoil(&mut rng, &mut sheet);
        }
        let (compared, _) = compared(&sheet, &mut met);
        _ = met.check(&compared, &plan, &mut rng);
        check_drawn(&compared, &mut rng, &mut met);
    }
    met.print("spoiled");
    let possible = [OUT_OF_RANGE, TOO_MANY, KIND_MISSING, OUT_OF_ORDER, TOO_FEW_PLACES, WRONG_ROWS, RULE_BROKEN];
    assert!(met.each_above(1_000, &possible) && met.share.is_good(), "{met:?}");
}

#[test]
fn stored_sheets_agree() {
    let mut rng = Rng::new(110);
    let mut met = Met::default();
    for stored in stored_sheets() {
        if let Ok(reading) = read(&stored.text, Form::of(&stored.text)) {
            check_sheet(&reading.sheet, &mut rng, &mut met);
        }
    }
    met.print("stored");
    assert!(met.each_above(200, &[WRONG_ROWS, RULE_BROKEN]) && met.share.is_good(), "{met:?}");
}

/// Every plan of sheets that have few, against the listing of every schedule.
#[test]
fn every_plan_of_small_sheets() {
    const PLANS: RangeInclusive<usize> = 100..=6_000;
    const SHEETS: usize = 300;
    let mut rng = Rng::new(111);
    for form in FORMS {
        let (mut tally, mut share) = (Tally::default(), Share::default());
        let drawn = std::iter::repeat_with(|| small(&mut rng, form, 5));
        for sheet in drawn.filter(|sheet| PLANS.contains(&plan_count(sheet))).take(SHEETS) {
            check_every_plan(&PRODUCT, &sheet, &mut tally);
            share.meet_searched(&sheet);
        }
        let Tally { plans, listed, not_listed, differ } = tally;
        println!(
            "checking, {form:?}: every plan of {share}, {plans} compared, {differ} differ ({} schedules, {listed} of them listed)",
            listed + not_listed
        );
        assert!(differ == 0 && listed.min(not_listed) > 100 && share.is_good(), "{tally:?} {share:?}");
    }
}
