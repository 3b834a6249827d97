//! The search by single rounds, from document 02's request 4: started, moved by one round a call, and looked at between rounds. Each call of a search
//! is given the same sheet and the same areas.

use crate::admission::admit;
use crate::plan::{time_numbers, times_in, Entry, Pair, Plan, NUMBERS_A_TRAIN};
use crate::planner::{figure, holds_pairs, holds_plan, put_first, Counts};
use crate::refusal::Refusal;
use crate::search::Search;
use crate::sheet::Sheet;

/// The areas of one search: for the pairs, for the train of each order, and for three numbers a train.
#[derive(Clone, Debug, PartialEq, Eq)]
pub struct SearchAreas {
    pub pairs: Vec<Pair>,
    pub train_of_order: Vec<u8>,
    pub times: Vec<u32>,
}

/// What a call for a round says.
#[derive(Clone, Copy, Debug, PartialEq, Eq)]
pub enum Said {
    GoesOn,
    Ended(Counts),
    Refused(Refusal),
}

/// A search between two calls.
#[derive(Clone, Debug, PartialEq, Eq)]
pub struct Watched {
    pub search: Search,
    /// How many pairs are recorded.
    pairs: usize,
}

impl Watched {
    /// Makes the tests alone: of the sheet, then of the lengths of all three areas, in the order of `SearchAreas`.
    pub fn start(sheet: &Sheet, [pairs, train_of_order, times]: [usize; 3]) -> Result<Watched, Refusal> {
        admit(sheet)?;
        holds_pairs(sheet, pairs)?;
        holds_plan(sheet, train_of_order, times)?;
        Ok(Watched { search: Search::start(sheet), pairs: 0 })
    }

    /// Makes one round, and none after the end, which is told again.
    pub fn round(&mut self, sheet: &Sheet, areas: &mut SearchAreas) -> Said {
        if self.search.goes_on() {
            self.make_round(sheet, areas);
        }
        if self.search.goes_on() {
            return Said::GoesOn;
        }
        match self.search.end() {
            Ok(rounds) => Said::Ended(Counts { pairs: self.pairs, rounds }),
            Err(refusal) => Said::Refused(refusal),
        }
    }

    /// What the round records goes to the areas: the pair behind the others or over the last one, the plan over the one before.
    fn make_round(&mut self, sheet: &Sheet, areas: &mut SearchAreas) {
        if let Some(better) = self.search.round(sheet) {
            self.pairs += usize::from(!better.replaces);
            areas.pairs[self.pairs - 1] = better.pair;
            put_first(better.train_of_order, &mut areas.train_of_order);
            put_first(&time_numbers(better.times), &mut areas.times);
        }
    }

    /// The pairs recorded so far, of the area.
    pub fn look<'a>(&self, pairs: &'a [Pair]) -> &'a [Pair] {
        &pairs[..self.pairs]
    }
}

/// A whole search in areas of its own: the plan that stands there after each round, with the pair recorded last. None stands there where nothing is recorded,
/// and none is given of a sheet that the start refuses.
pub fn watch(sheet: &Sheet) -> Vec<Entry> {
    let (n, q) = sheet.size();
    let lengths = [figure(sheet), n, NUMBERS_A_TRAIN * q];
    let Ok(mut search) = Watched::start(sheet, lengths) else { return Vec::new() };
    let mut areas = SearchAreas {
        pairs: vec![Pair::default(); lengths[0]],
        train_of_order: vec![0; lengths[1]],
        times: vec![0; lengths[2]],
    };
    let mut plans = Vec::new();
    let mut goes_on = true;
    while goes_on {
        goes_on = search.round(sheet, &mut areas) == Said::GoesOn;
        let SearchAreas { pairs, train_of_order, times } = &areas;
        if let Some(&pair) = search.look(pairs).last() {
            plans.push(Entry { pair, plan: Plan { train_of_order: train_of_order.clone(), times: times_in(times) } });
        }
    }
    plans
}
