//! The product's listing of one sheet, by either of its calls.

use crate::cause::{cause_of, if_short};
use crate::lengths::{longer, too_short};
use binding::areas::PairsArea;
use binding::calls;
use binding::exported::ExportedSheet;
use native::plan::{Listing, Pair};
use native::refusal::Refusal;
use native::rng::Rng;
use native::sheet::Sheet;
use std::fmt::Debug;

/// A call that lists, on one sheet.
pub struct Lists<'a> {
    pub sheet: &'a Sheet,
    pub call: &'a dyn Fn(&mut PairsArea) -> calls::Listing,
    /// Told beside what differs.
    pub told: &'a dyn Debug,
}

/// The product lists as expected with an area that is just long enough, and with a longer one, and refuses one that is too short.
pub fn check_listing(sheet: &Sheet, expected: &Result<Listing, Refusal>, rng: &mut Rng) {
    let exported = ExportedSheet::from(sheet);
    Lists { sheet, call: &|area| exported.list_in(area), told: sheet }.check(expected, rng);
}

impl Lists<'_> {
    pub fn check(&self, expected: &Result<Listing, Refusal>, rng: &mut Rng) {
        self.check_in(PairsArea::least(self.sheet), expected);
        self.check_in(longer(self.sheet, rng), expected);
        let short = Err(if_short(expected));
        too_short(self.sheet, rng).iter().for_each(|&length| self.check_in(length, &short));
        self.check_in(0, &short);
    }

    /// With an area of this length: the reply, the first elements, and the rest as found.
    fn check_in(&self, length: usize, expected: &Result<Listing, Refusal>) {
        let Lists { call, told, .. } = self;
        let (pairs, rounds): (&[Pair], usize) = expected.as_ref().map_or((&[], 0), |list| (&list.pairs, list.rounds));
        let numbers = numbers_of(pairs);
        let mut area = PairsArea::of_length(length);
        let reply = call(&mut area);
        let expected = calls::Listing { cause: cause_of(expected), pairs: pairs.len(), rounds };
        assert_eq!(reply, expected, "{length} {told:?}");
        assert_eq!(area.first(numbers.len()), numbers, "{length} {told:?}");
        assert!(area.guarded_but(numbers.len()), "{length} {told:?}");
    }
}

/// What the area of pairs holds of these.
pub fn numbers_of(pairs: &[Pair]) -> Vec<i64> {
    pairs.iter().flat_map(|pair| [pair.arrival.into(), pair.lateness]).collect()
}
