//! The product against the listing of every loading, short ones too, on random sheets of up to nine wagons.

use crate::share::Share;
use binding::product::PRODUCT;
use native::agreement::agrees;
use native::draw::small;
use native::listing::seen;
use native::rng::Rng;
use native::sheet::Form;

/// About every second one has places to spare.
const SHEETS: usize = 10_000;
const MOST_WAGONS: usize = 9;

/// In listing, and in choosing by the wishes around each pair.
fn compare(form: Form, seed: u64) {
    let mut rng = Rng::new(seed);
    let mut share = Share::default();
    let (mut differ, mut refused, mut several, mut of_nine) = (0, 0, 0, 0);
    for _ in 0..SHEETS {
        let sheet = small(&mut rng, form, MOST_WAGONS as u32);
        let seen = seen(&sheet);
        let pairs = seen.front().len();
        share.meet_searched(&sheet);
        refused += usize::from(pairs == 0);
        several += usize::from(pairs > 1);
        of_nine += usize::from(sheet.orders.len() == MOST_WAGONS);
        if !agrees(&PRODUCT, &sheet, &seen) {
            differ += 1;
            println!("differs: {sheet:?}");
        }
    }
    print!("listing, {form:?}: {share} compared, {differ} differ ");
    println!("({refused} without a schedule, {several} with several pairs, {of_nine} of nine wagons)");
    assert_eq!(differ, 0);
    assert!(refused > 100 && of_nine > 100 && (several > 100) == (form == Form::Windows));
    assert!(share.is_good(), "{share:?}");
}

#[test]
fn window_sheets() {
    compare(Form::Windows, 201);
}

#[test]
fn timetable_sheets() {
    compare(Form::Timetable, 202);
}
