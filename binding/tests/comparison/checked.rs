//! The product's checking of one plan.

use crate::cause::{cause_of, if_short};
use crate::lengths::{longer, too_short};
use crate::listed::numbers_of;
use binding::areas::{CheckAreas, PairsArea};
use binding::calls::Check;
use binding::exported::ExportedSheet;
use native::checking::{check_by, Checked, ForeignPlan};
use native::plan::{Listing, Pair};
use native::refusal::Refusal;
use native::rng::Rng;
use native::sheet::Sheet;

/// A sheet with the independent planner's listing of it.
pub struct Compared<'a> {
    pub sheet: &'a Sheet,
    pub listed: Result<Listing, Refusal>,
}

impl Compared<'_> {
    /// The product says of the plan what the independent implementation says, with an area that is just long enough or longer, and refuses one that
    /// is too short. Gives what is said.
    pub fn check_plan(&self, plan: &ForeignPlan, rng: &mut Rng) -> Result<Checked, Refusal> {
        let Compared { sheet, listed } = self;
        let expected = check_by(listed, sheet, plan);
        let length = if rng.one_in(3) { longer(sheet, rng) } else { PairsArea::least(sheet) };
        self.check_in(plan, length, &expected);
        let short = Err(if_short(&expected));
        let [by_one, by_more] = too_short(sheet, rng);
        self.check_in(plan, by_one, &short);
        if rng.one_in(8) {
            self.check_in(plan, by_more, &short);
            self.check_in(plan, 0, &short);
        }
        expected
    }

    /// With an area of this length: the reply, the list in the first elements, the rest as found, and the plan as lent.
    fn check_in(&self, plan: &ForeignPlan, length: usize, expected: &Result<Checked, Refusal>) {
        let Compared { sheet, listed } = self;
        let numbers = match (expected, listed) {
            (Ok(_), Ok(listing)) => numbers_of(&listing.pairs),
            _ => Vec::new(),
        };
        let mut areas = CheckAreas::holding(plan, length);
        let reply = ExportedSheet::from(*sheet).check_in(&mut areas);
        assert_eq!(reply, reply_of(expected), "{length} {plan:?} {sheet:?}");
        assert_eq!(areas.pairs.first(numbers.len()), numbers, "{length} {plan:?} {sheet:?}");
        assert!(areas.pairs.guarded_but(numbers.len()), "{length} {plan:?} {sheet:?}");
        assert!(areas.plan.hold(plan), "{length} {plan:?} {sheet:?}");
    }
}

/// In the product's numbers: noughts beside a cause.
fn reply_of(answer: &Result<Checked, Refusal>) -> Check {
    let cause = cause_of(answer);
    match *answer {
        Ok(Checked { pair: Pair { arrival, lateness }, listed, counts }) => {
            Check { cause, last: arrival, worst: lateness, listed, pairs: counts.pairs, rounds: counts.rounds }
        }
        Err(_) => Check { cause, last: 0, worst: 0, listed: false, pairs: 0, rounds: 0 },
    }
}
