//! How many places there must be: with one fewer than orders every call refuses a sheet with 7, and the reader its text; with as many as orders, and
//! with one to spare, none does.

use crate::bounding::check_bound;
use crate::checked::Compared;
use crate::planning::Met;
use crate::size::Size;
use crate::spoil::set_places;
use crate::texts::check_reading;
use crate::watched::Both;
use binding::areas::SearchAreas;
use native::foreign::drawn;
use native::planner::list;
use native::refusal::*;
use native::rng::Rng;
use native::sheet::{Sheet, FORMS};
use native::write::{numbered_name, text_of};

const TOO_FEW: Refusal = Refusal { number: TOO_FEW_PLACES, returned: 0 };

/// Every call refuses the sheet with 7, or none does.
fn check_calls(sheet: &Sheet, too_few: bool, rng: &mut Rng) {
    let is_too_few = |refusal: Option<Refusal>| refusal == Some(TOO_FEW);
    let mut planned = Met::default();
    planned.check(sheet, rng);
    let sevens = planned.numbers[TOO_FEW_PLACES];
    assert_eq!(sevens, if too_few { planned.numbers.iter().sum() } else { 0 }, "{sheet:?}");
    let compared = Compared { sheet, listed: list(sheet) };
    let plan = drawn(rng, sheet);
    assert_eq!(is_too_few(compared.check_plan(&plan, rng).err()), too_few, "{sheet:?}");
    assert_eq!(is_too_few(check_bound(sheet).err()), too_few, "{sheet:?}");
    assert_eq!(Both::start(sheet, SearchAreas::least(sheet)).err(), too_few.then_some(TOO_FEW), "{sheet:?}");
    let text = text_of(sheet, &mut numbered_name);
    let read = check_reading(text.as_bytes(), sheet.form());
    assert_eq!(read, if too_few { Err(TOO_FEW) } else { Ok(sheet.clone()) }, "{text}");
}

#[test]
fn one_place_fewer_or_more() {
    let mut rng = Rng::new(117);
    let mut met = [0; 3];
    for turn in 0..2_000 {
        let size = if turn % 50 < 2 { Size::Any } else { Size::UpTo(12) };
        let mut sheet = size.draw(&mut rng, FORMS[turn % 2]);
        let n = sheet.orders.len() as u32;
        for (count, places) in met.iter_mut().zip(n - 1..) {
            if set_places(&mut rng, &mut sheet.capacity, places) {
                check_calls(&sheet, places < n, &mut rng);
                *count += 1;
            }
        }
    }
    let [fewer, full, more] = met;
    println!(
        "planning, places: {fewer} sheets with one too few, {full} with as many as orders, {more} with one to spare"
    );
    assert!(met.iter().all(|&count| count > 1_000), "{met:?}");
}
