//! The areas lent to each call: refused with 10 where they are too short, after 7 and before 8, and then nothing is written; else only
//! the first elements are.

use native::cases::{sheet_of, CASE_A};
use native::draw::big;
use native::limits::MOST_TRAINS;
use native::plan::Pair;
use native::planner::{choose_in, list_in, Counts};
use native::refusal::*;
use native::rng::Rng;
use native::sheet::{Sheet, FORMS};

pub const GUARD_PAIR: Pair = Pair { arrival: 7, lateness: 7 };
pub const GUARD_TRAIN: u8 = 77;
pub const GUARD_TIME: u32 = 777;

/// Case a with a place fewer than there are orders.
pub fn too_few_places() -> Sheet {
    let mut sheet = sheet_of(CASE_A);
    sheet.capacity[1] -= 1;
    sheet
}

/// Case a with an order that is released behind the last window.
pub fn late() -> Sheet {
    let mut sheet = sheet_of(CASE_A);
    sheet.orders.release[0] = 201;
    sheet
}

/// Lists with an area of this length, filled with guards.
pub fn list_guarded(sheet: &Sheet, length: usize) -> (Result<Counts, Refusal>, Vec<Pair>) {
    let mut pairs = vec![GUARD_PAIR; length];
    (list_in(sheet, &mut pairs), pairs)
}

/// Chooses with areas of these lengths, filled with guards.
fn choose_guarded(sheet: &Sheet, wish: u32, lengths: [usize; 2]) -> (Result<Pair, Refusal>, Vec<u8>, Vec<u32>) {
    let (mut train_of_order, mut times) = (vec![GUARD_TRAIN; lengths[0]], vec![GUARD_TIME; lengths[1]]);
    (choose_in(sheet, wish, &mut train_of_order, &mut times), train_of_order, times)
}

/// Two pairs are the figure of case a.
#[test]
fn refused_listing() {
    for (sheet, length, number) in [
        (too_few_places(), 0, TOO_FEW_PLACES),
        (too_few_places(), 6, TOO_FEW_PLACES),
        (sheet_of(CASE_A), 1, AREA_TOO_SHORT),
        (sheet_of(CASE_A), 0, AREA_TOO_SHORT),
        (late(), 1, AREA_TOO_SHORT),
        (late(), 2, NO_SCHEDULE),
    ] {
        let refused = (Err(Refusal::of_all(number)), vec![GUARD_PAIR; length]);
        assert_eq!(list_guarded(&sheet, length), refused, "{length}");
    }
}

/// Three orders and two trains: three numbers and six are long enough, one fewer of either is not.
#[test]
fn refused_choosing() {
    for (sheet, wish, lengths, number) in [
        (too_few_places(), 0, [0, 0], TOO_FEW_PLACES),
        (sheet_of(CASE_A), u32::MAX, [2, 6], AREA_TOO_SHORT),
        (sheet_of(CASE_A), u32::MAX, [3, 5], AREA_TOO_SHORT),
        (sheet_of(CASE_A), u32::MAX, [3, 4], AREA_TOO_SHORT),
        (sheet_of(CASE_A), u32::MAX, [3, 0], AREA_TOO_SHORT),
        (sheet_of(CASE_A), 0, [2, 5], AREA_TOO_SHORT),
        (late(), 0, [2, 6], AREA_TOO_SHORT),
        (late(), 0, [3, 5], AREA_TOO_SHORT),
        (late(), 0, [3, 6], NO_SCHEDULE),
        (late(), u32::MAX, [3, 6], NO_SCHEDULE),
        (sheet_of(CASE_A), 0, [3, 6], WISH_TOO_EARLY),
        (sheet_of(CASE_A), 109, [3, 6], WISH_TOO_EARLY),
    ] {
        let refused = (Err(Refusal::of_all(number)), vec![GUARD_TRAIN; lengths[0]], vec![GUARD_TIME; lengths[1]]);
        assert_eq!(choose_guarded(&sheet, wish, lengths), refused, "{wish} {lengths:?}");
    }
}

#[test]
fn only_first_elements_written() {
    let good = sheet_of(CASE_A);
    for length in [2, 3, 8] {
        let (counts, pairs) = list_guarded(&good, length);
        assert_eq!(counts, Ok(Counts { pairs: 2, rounds: 2 }));
        assert_eq!(pairs[..2], [Pair { arrival: 110, lateness: 150 }, Pair { arrival: 130, lateness: 70 }]);
        assert_eq!(pairs[2..], vec![GUARD_PAIR; length - 2]);
    }
    let (pair, train_of_order, times) = choose_guarded(&good, 129, [5, 8]);
    assert_eq!(pair, Ok(Pair { arrival: 110, lateness: 150 }));
    assert_eq!(train_of_order, [1, 2, 2, GUARD_TRAIN, GUARD_TRAIN]);
    assert_eq!(times, [0, 30, 1, 90, 110, 1, GUARD_TIME, GUARD_TIME]);
    let just_long_enough = (Ok(Pair { arrival: 130, lateness: 70 }), vec![2, 1, 2], vec![40, 70, 1, 100, 130, 1]);
    assert_eq!(choose_guarded(&good, 130, [3, 6]), just_long_enough);
}

/// Choosing asks for three numbers of times a train, in either form.
#[test]
fn three_numbers_a_train() {
    let mut rng = Rng::new(8);
    for q in 1..=MOST_TRAINS {
        for form in FORMS {
            let sheet = big(&mut rng, form, MOST_TRAINS as u32, q);
            let too_short = |length| {
                choose_guarded(&sheet, u32::MAX, [MOST_TRAINS, length]).0 == Err(Refusal::of_all(AREA_TOO_SHORT))
            };
            assert!(too_short(3 * q - 1) && !too_short(3 * q), "{sheet:?}");
        }
    }
}
