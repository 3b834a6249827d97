//! How many of a test's sheets have places to spare, and how many an empty train: each test compares such sheets as well as full ones.

use native::plan::Entry;
use native::search::search;
use native::sheet::Sheet;
use std::fmt;

/// Of admitted sheets.
#[derive(Debug, Default)]
pub struct Share {
    pub sheets: usize,
    pub to_spare: usize,
    pub empty_train: usize,
}

impl Share {
    /// Meets a sheet; a train is empty in one of its listed plans or not.
    pub fn meet(&mut self, sheet: &Sheet, empty_train: bool) {
        self.sheets += 1;
        self.to_spare += usize::from(sheet.spare_places() > Some(0));
        self.empty_train += usize::from(empty_train);
    }

    /// Meets a sheet whose plans are not known.
    pub fn meet_searched(&mut self, sheet: &Sheet) {
        self.meet(sheet, search(sheet).is_ok_and(|recorded| any_empty(&recorded.entries)));
    }

    /// A quarter of the sheets at least has places to spare, a quarter is full, and a twentieth has an empty train.
    pub fn is_good(&self) -> bool {
        let Share { sheets, to_spare, empty_train } = *self;
        4 * to_spare.min(sheets - to_spare) > sheets && 20 * empty_train > sheets
    }
}

impl fmt::Display for Share {
    fn fmt(&self, f: &mut fmt::Formatter) -> fmt::Result {
        let Share { sheets, to_spare, empty_train } = self;
        write!(
            f,
            "{sheets} sheets ({to_spare} with places to spare, {empty_train} with an empty train in a listed plan)"
        )
    }
}

/// Whether a train is empty in one of these plans.
pub fn any_empty(entries: &[Entry]) -> bool {
    entries.iter().any(|entry| !entry.plan.empty_trains().is_empty())
}
