//! No train of a plan that the product gives is needlessly late: small sheets by every schedule, and drawn and stored sheets of any size.

use crate::ladders::ladders;
use crate::share::Share;
use crate::size::Size;
use binding::product::PRODUCT;
use native::draw::small;
use native::every_plan::plan_count;
use native::ladder::Ladder;
use native::prompt::{Soonest, Tally};
use native::reader::read;
use native::rng::Rng;
use native::sheet::{Form, Sheet, FORMS};
use native::stored::stored_sheets;

/// Every loading, with every departure in the windows.
#[test]
fn small_sheets() {
    const MOST_PLANS: usize = 1_000_000;
    let mut rng = Rng::new(122);
    for (form, count) in [(Form::Windows, 6_000), (Form::Timetable, 1_000)] {
        let (mut tally, mut share) = (Tally::default(), Share::default());
        let drawn = std::iter::repeat_with(|| small(&mut rng, form, 6));
        for sheet in drawn.filter(|sheet| plan_count(sheet) <= MOST_PLANS).take(count) {
            share.meet_searched(&sheet);
            tally.check_small(&PRODUCT, &sheet, &Soonest::of(&sheet));
        }
        tally.print(&format!("{form:?}"));
        assert!(tally.needless == 0 && tally.plans > count / 2 && tally.empty > count / 4, "{tally:?}");
        let waiting = if form == Form::Windows { tally.waiting > count / 5 } else { tally.waiting == 0 };
        assert!(waiting, "{tally:?}");
        assert!(share.is_good(), "{share:?}");
    }
}

fn check_large(sheets: &[Sheet], what: &str) {
    let mut tally = Tally::default();
    sheets.iter().for_each(|sheet| tally.check_large(&PRODUCT, sheet));
    tally.print(what);
    assert!(tally.needless == 0 && tally.empty.min(tally.waiting) > tally.sheets, "{tally:?}");
}

#[test]
fn drawn_sheets() {
    let mut rng = Rng::new(123);
    let mut sheets = Vec::new();
    for turn in 0..400 {
        sheets.push(Size::Any.draw(&mut rng, FORMS[turn % 2]));
    }
    for (release, stir) in [(0, 0), (300, 3), (3_000, 50)] {
        sheets.extend(ladders(&mut rng, 60, 12, Ladder { release, stir, shuffled: stir > 0 }));
    }
    check_large(&sheets, "drawn");
}

#[test]
fn every_stored_sheet() {
    let read = stored_sheets().into_iter().filter_map(|stored| read(&stored.text, Form::of(&stored.text)).ok());
    check_large(&read.map(|reading| reading.sheet).collect::<Vec<Sheet>>(), "stored");
}
