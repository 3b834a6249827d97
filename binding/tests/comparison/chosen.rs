//! The product's choice on one sheet, by one wish, by either of its calls.

use crate::cause::{cause_of, if_short};
use binding::areas::PlanAreas;
use binding::calls::Choice;
use binding::exported::ExportedSheet;
use native::booking::is_booked;
use native::plan::{time_numbers, times_in, Entry, Pair};
use native::refusal::Refusal;
use native::rng::Rng;
use native::sheet::Sheet;
use std::fmt::Debug;

/// A call that chooses by a wish, on one sheet.
pub struct Chooses<'a> {
    pub sheet: &'a Sheet,
    pub wish: u32,
    pub call: &'a dyn Fn(&mut PlanAreas) -> Choice,
    /// Told beside what differs.
    pub told: &'a dyn Debug,
}

/// The product chooses as expected with areas that are long enough or have room to spare, and refuses where one is too short.
pub fn check_choosing(sheet: &Sheet, wish: u32, expected: &Result<&Entry, Refusal>, rng: &mut Rng) {
    let exported = ExportedSheet::from(sheet);
    Chooses { sheet, wish, call: &|areas| exported.choose_in(wish, areas), told: sheet }.check(expected, rng);
}

impl Chooses<'_> {
    pub fn check(&self, expected: &Result<&Entry, Refusal>, rng: &mut Rng) {
        let least = PlanAreas::least(self.sheet);
        let spare = least.map(|length| length + rng.index(4));
        self.check_in(if rng.one_in(3) { least } else { spare }, expected);
        let short = Err(if_short(expected));
        for area in 0..least.len() {
            for missing in [1, 1 + rng.index(least[area].max(1))] {
                let mut lengths = spare;
                lengths[area] = least[area].saturating_sub(missing);
                self.check_in(lengths, &short);
            }
        }
        self.check_in([0; 2], &short);
    }

    /// With areas of these lengths: the reply, the first elements, among them the departures' windows, and the rest as found.
    fn check_in(&self, lengths: [usize; 2], expected: &Result<&Entry, Refusal>) {
        let Chooses { sheet, wish, call, told } = self;
        let Pair { arrival, lateness } = expected.map_or(Pair::default(), |entry| entry.pair);
        let trains: &[u8] = expected.map_or(&[], |entry| &entry.plan.train_of_order);
        let times = expected.map_or(Vec::new(), |entry| time_numbers(&entry.plan.times));
        let mut areas = PlanAreas::of_lengths(lengths);
        let reply = call(&mut areas);
        let expected = Choice { cause: cause_of(expected), last: arrival, worst: lateness };
        assert_eq!(reply, expected, "{wish} {lengths:?} {told:?}");
        assert_eq!(areas.train_of_order.first(trains.len()), trains, "{wish} {lengths:?} {told:?}");
        assert_eq!(areas.times.first(times.len()), times, "{wish} {lengths:?} {told:?}");
        assert!(is_booked(sheet, &times_in(areas.times.first(times.len()))), "{wish} {lengths:?} {told:?}");
        assert!(areas.train_of_order.guarded_but(trains.len()), "{wish} {lengths:?} {told:?}");
        assert!(areas.times.guarded_but(times.len()), "{wish} {lengths:?} {told:?}");
    }
}
