//! Planning anew behind trains that have gone: gone parts of our own plans and drawn ones, damaged and wild ones, on drawn, spoiled and stored sheets of the
//! window form; and against every schedule that begins with them.

use crate::filled::filled;
use crate::ladders::ladders;
use crate::replanned::Met;
use crate::share::Share;
use crate::size::Size;
use crate::spoil::spoil;
use binding::calls::{WindowSheet, WindowsAt};
use binding::product::PRODUCT;
use native::agreement::agrees_anew;
use native::departed::{damaged_gone, drawn_gone, first_trains, small_sheet, wild_gone};
use native::every_plan::plan_count;
use native::gone::Gone;
use native::ladder::Ladder;
use native::listing::{seen_behind, seen_with_all_departures_behind};
use native::planner::list;
use native::prompt::Tally;
use native::reader::read;
use native::refusal::*;
use native::replan::relist;
use native::rng::Rng;
use native::search::search;
use native::sheet::{Form, Sheet};
use native::stored::stored_sheets;
use native::wishes::wishes;
use std::mem::{offset_of, size_of};

/// Given to an admitted sheet.
const OF_ADMITTED: [usize; 4] = [0, NO_SCHEDULE, WISH_TOO_EARLY, WRONG_GONE_PART];

/// As a C compiler lays out what include/joshkamber.h declares, on x86-64.
#[test]
fn layout() {
    assert_eq!(size_of::<WindowSheet>(), 3_200);
    assert_eq!(
        (offset_of!(WindowsAt, sheet), offset_of!(WindowsAt, minute), size_of::<WindowsAt>()),
        (0, 3_200, 3_208)
    );
}

/// Some gone parts of an admitted sheet: of our own plans or drawn ones, one of them with its damages, one that has little to do with the sheet, and none.
fn check_sheet(sheet: &Sheet, rng: &mut Rng, met: &mut Met) {
    met.check(sheet, &drawn_gone(rng, sheet), rng);
    let gone = drawn_gone(rng, sheet);
    if met.check(sheet, &gone, rng) != WRONG_GONE_PART {
        let all = damaged_gone(rng, sheet, &gone);
        for _ in 0..4 {
            let damaged = &all[rng.index(all.len())];
            let number = met.check(sheet, &damaged.gone, rng);
            assert!(number == WRONG_GONE_PART || !damaged.refused, "{:?} {sheet:?}", damaged.gone);
        }
    }
    met.check(sheet, &wild_gone(rng, sheet), rng);
}

fn drawn_sheet(rng: &mut Rng, size: Size) -> Sheet {
    match size {
        Size::UpTo(most_orders) => small_sheet(rng, most_orders),
        Size::Any => size.draw(rng, Form::Windows),
    }
}

#[test]
fn random_sheets() {
    let mut rng = Rng::new(124);
    for (sheets, size, least) in [(6_000, Size::UpTo(9), 300), (1_500, Size::UpTo(40), 150), (150, Size::Any, 20)] {
        let (mut met, mut share) = (Met::default(), Share::default());
        for _ in 0..sheets {
            let sheet = drawn_sheet(&mut rng, size);
            share.meet_searched(&sheet);
            check_sheet(&sheet, &mut rng, &mut met);
        }
        met.print(&size.to_string());
        assert!(met.each_above(least, &OF_ADMITTED) && share.is_good(), "{met:?} {share:?}");
    }
}

/// Every damage of a gone part.
#[test]
fn every_damage() {
    let mut rng = Rng::new(125);
    let mut met = Met::default();
    for _ in 0..600 {
        let sheet = small_sheet(&mut rng, 12);
        let gone = drawn_gone(&mut rng, &sheet);
        if met.check(&sheet, &gone, &mut rng) != WRONG_GONE_PART {
            for damaged in damaged_gone(&mut rng, &sheet, &gone) {
                let number = met.check(&sheet, &damaged.gone, &mut rng);
                assert!(number == WRONG_GONE_PART || !damaged.refused, "{:?} {sheet:?}", damaged.gone);
            }
        }
    }
    met.print("every damage");
    assert!(met.each_above(100, &OF_ADMITTED), "{met:?}");
}

/// Gone parts of the sheet before it was spoiled, and wild ones: the refusals of the sheet come first.
#[test]
fn spoiled_sheets() {
    let mut rng = Rng::new(126);
    let mut met = Met::default();
    for _ in 0..8_000 {
        let mut sheet = small_sheet(&mut rng, 9);
        let gone = drawn_gone(&mut rng, &sheet);
        (0..rng.within(1, 3)).for_each(|_| spoil(&mut rng, &mut sheet));
        met.check(&sheet, &gone, &mut rng);
        met.check(&sheet, &wild_gone(&mut rng, &sheet), &mut rng);
    }
    met.print("spoiled");
    let of_sheet = [OUT_OF_RANGE, TOO_MANY, KIND_MISSING, OUT_OF_ORDER, TOO_FEW_PLACES];
    assert!(met.each_above(30, &[&of_sheet[..], &OF_ADMITTED].concat()), "{met:?}");
}

/// Behind each number of first trains, at the minute of the last of them: of ladders, which make many rounds, and of sheets whose list is filled.
#[test]
fn many_rounds() {
    let mut rng = Rng::new(127);
    let mut sheets: Vec<Sheet> = (0..40).map(|_| filled(&mut rng)).collect();
    for (release, stir) in [(0, 0), (300, 3), (3_000, 50)] {
        let ladder = Ladder { release, stir, shuffled: stir > 0 };
        sheets.extend(ladders(&mut rng, 60, 12, ladder).into_iter().filter(|sheet| sheet.form() == Form::Windows));
    }
    let (mut met, mut rounds) = (Met::default(), 0);
    for sheet in &sheets {
        let entries = search(sheet).expect("a plan").entries;
        for count in 0..sheet.capacity.len() {
            let plan = &entries[rng.index(entries.len())].plan;
            let mut gone = first_trains(&mut rng, &plan.into(), count);
            gone.minute = gone.trains.departures.last().copied().unwrap_or(0);
            met.check(sheet, &gone, &mut rng);
            rounds += relist(sheet, &gone).map_or(0, |listing| listing.rounds);
        }
    }
    met.print(&format!("ladders and filled lists, {rounds} rounds"));
    assert!(rounds > 5_000 && met.each_above(50, &[0, WISH_TOO_EARLY]), "{met:?}");
}

#[test]
fn stored_sheets_agree() {
    const MOST_ROUNDS: usize = 200;
    let mut rng = Rng::new(128);
    let mut met = Met::default();
    for stored in stored_sheets().iter().filter(|stored| Form::of(&stored.text) == Form::Windows) {
        let Ok(reading) = read(&stored.text, Form::Windows) else { continue };
        let sheet = &reading.sheet;
        if list(sheet).is_ok_and(|listing| listing.rounds > MOST_ROUNDS) {
            let gone = drawn_gone(&mut rng, sheet);
            assert_eq!((PRODUCT.relist)(sheet, &gone), relist(sheet, &gone), "{}", stored.name);
        } else {
            check_sheet(sheet, &mut rng, &mut met);
        }
    }
    met.print("stored");
    assert!(met.each_above(8, &OF_ADMITTED), "{met:?}");
}

/// With no train gone and minute 0 the product answers as its ordinary calls do.
#[test]
fn nothing_gone() {
    let mut rng = Rng::new(129);
    let none = Gone::default();
    let mut answers = 0;
    for turn in 0..3_000 {
        let size = if turn % 50 == 0 { Size::Any } else { Size::UpTo(20) };
        let mut sheet = size.draw(&mut rng, Form::Windows);
        if turn % 4 == 0 {
            spoil(&mut rng, &mut sheet);
        }
        let listed = (PRODUCT.list)(&sheet);
        assert_eq!((PRODUCT.relist)(&sheet, &none), listed, "{sheet:?}");
        for wish in wishes(&listed.map_or(Vec::new(), |listing| listing.pairs)) {
            assert_eq!((PRODUCT.rechoose)(&sheet, &none, wish), (PRODUCT.choose)(&sheet, wish), "{wish} {sheet:?}");
            answers += 1;
        }
    }
    println!("replanning, nothing gone: {answers} choices compared with ordinary ones");
}

/// Every loading that begins with the gone trains, on sheets of up to nine wagons; every schedule that does, on smaller ones: the front, the best by each wish,
/// and no train needlessly late.
#[test]
fn every_beginning() {
    const MOST_PLANS: usize = 100_000;
    let mut rng = Rng::new(130);
    let (mut tally, mut parts, mut none) = (Tally::default(), 0, 0);
    for turn in 0..12_000 {
        let sheet = small_sheet(&mut rng, if turn % 20 == 0 { 9 } else { 6 });
        let gone = drawn_gone(&mut rng, &sheet);
        let listed = relist(&sheet, &gone);
        if listed == Err(Refusal::of_all(WRONG_GONE_PART)) {
            continue;
        }
        parts += 1;
        none += usize::from(listed.is_err());
        assert!(agrees_anew(&PRODUCT, &sheet, &gone, &seen_behind(&sheet, &gone)), "{gone:?} {sheet:?}");
        if plan_count(&sheet) <= MOST_PLANS {
            let all = seen_with_all_departures_behind(&sheet, &gone);
            assert!(agrees_anew(&PRODUCT, &sheet, &gone, &all), "{gone:?} {sheet:?}");
            tally.check_small_anew(&PRODUCT, &sheet, &gone);
        }
    }
    println!("replanning, every beginning: {parts} gone parts compared, {none} with no schedule behind");
    tally.print("planned anew, every schedule");
    assert!(parts > 6_000 && none > 1_000 && tally.needless == 0 && tally.plans > 1_500, "{parts} {none} {tally:?}");
}

/// No train is needlessly late on sheets of any size, by passes over what is left.
#[test]
fn no_train_needlessly_late() {
    let mut rng = Rng::new(131);
    let mut tally = Tally::default();
    for turn in 0..600 {
        let size = if turn % 3 == 0 { Size::Any } else { Size::UpTo(40) };
        let sheet = drawn_sheet(&mut rng, size);
        let gone = drawn_gone(&mut rng, &sheet);
        tally.check_large_anew(&PRODUCT, &sheet, &gone);
    }
    tally.print("planned anew, drawn");
    assert!(tally.needless == 0 && tally.empty.min(tally.waiting) > 100, "{tally:?}");
}
