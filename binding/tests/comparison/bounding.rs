//! How long the list may be, as it is known beforehand: drawn, spoiled and stored sheets, and refused ones.

use crate::cause::cause_of;
use crate::share::Share;
use crate::size::Size;
use crate::spoil::spoil;
use binding::calls::Bound;
use binding::exported::ExportedSheet;
use native::draw::small;
use native::planner::bound;
use native::reader::read;
use native::refusal::*;
use native::rng::Rng;
use native::sheet::{Form, Sheet, FORMS};
use native::stored::stored_sheets;
use std::mem::{offset_of, size_of};

/// Both give the same figure, or refuse for the same cause, beside 0. Gives what is said.
pub fn check_bound(sheet: &Sheet) -> Result<usize, Refusal> {
    let answer = bound(sheet);
    let expected = Bound { cause: cause_of(&answer), most: answer.unwrap_or(0) };
    assert_eq!(ExportedSheet::from(sheet).bound(), expected, "{sheet:?}");
    answer
}

/// The admitted sheets, and how often each refusal was met, or none under 0.
#[derive(Debug, Default)]
struct Met {
    share: Share,
    numbers: [usize; NUMBER_COUNT],
}

impl Met {
    fn check(&mut self, sheet: &Sheet) {
        let answer = check_bound(sheet);
        self.numbers[answer.map_or_else(|refusal| refusal.number, |_| 0)] += 1;
        if answer.is_ok() {
            self.share.meet_searched(sheet);
        }
    }

    fn print(&self, what: &str) {
        println!("bound, {what}: {} answers compared on {}", self.numbers.iter().sum::<usize>(), self.share);
    }
}

/// As a C compiler lays out what include/joshkamber.h declares, on x86-64.
#[test]
fn layout() {
    assert_eq!((offset_of!(Bound, cause), offset_of!(Bound, most), size_of::<Bound>()), (0, 16, 24));
}

#[test]
fn random_sheets() {
    let mut rng = Rng::new(119);
    for form in FORMS {
        for (sheets, size) in [(20_000, Size::UpTo(9)), (3_000, Size::UpTo(40)), (1_000, Size::Any)] {
            let mut met = Met::default();
            (0..sheets).for_each(|_| met.check(&size.draw(&mut rng, form)));
            met.print(&format!("{form:?}, {size}"));
            assert!(met.numbers[0] == sheets && met.share.is_good(), "{met:?}");
        }
    }
}

/// Sheets without a schedule are not refused: no round is made.
#[test]
fn spoiled_sheets() {
    let mut rng = Rng::new(120);
    let mut met = Met::default();
    for turn in 0..40_000 {
        let mut sheet = small(&mut rng, FORMS[turn % 2], 9);
        (0..rng.within(1, 3)).for_each(|_| spoil(&mut rng, &mut sheet));
        met.check(&sheet);
    }
    met.print("spoiled");
    let possible = [0, OUT_OF_RANGE, TOO_MANY, KIND_MISSING, OUT_OF_ORDER, TOO_FEW_PLACES];
    let others = (0..NUMBER_COUNT).filter(|number| !possible.contains(number));
    assert!(possible.iter().all(|&number| met.numbers[number] > 1_000), "{met:?}");
    assert!(others.map(|number| met.numbers[number]).sum::<usize>() == 0, "{met:?}");
    assert!(met.share.is_good(), "{met:?}");
}

#[test]
fn stored_sheets_agree() {
    let mut met = Met::default();
    for stored in stored_sheets() {
        if let Ok(reading) = read(&stored.text, Form::of(&stored.text)) {
            met.check(&reading.sheet);
        }
    }
    met.print("stored");
    assert!(met.share.sheets > 120 && met.share.is_good(), "{met:?}");
}
