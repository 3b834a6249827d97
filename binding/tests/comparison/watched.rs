//! The product's search by single rounds beside the independent one, on one sheet.

use crate::cause::cause_of;
use crate::listed::numbers_of;
use crate::states::leaves_places;
use binding::areas::{PlanAreas, SearchAreas};
use binding::calls::{look, Round, State};
use binding::exported::ExportedSheet;
use binding::product::PRODUCT;
use native::finality::is_later;
use native::limits::MOST_ORDERS;
use native::plan::{time_numbers, Pair};
use native::planner::{put_first, Counts};
use native::refusal::Refusal;
use native::sheet::Sheet;
use native::watching::{self, Said, Watched};

/// What stands beside a cause of a start.
#[rustfmt::skip]
pub const NO_STATE: State =
    State { pairs: 0, rounds: 0, limit: 0, last: 0, ended: 0, train: [0; MOST_ORDERS], latest: [0; MOST_ORDERS] };

/// Before the first round no order has a train, and each may ride the last one; limit and last arrival are the search's own.
fn first_state(sheet: &Sheet, start: &State) -> State {
    let latest = [sheet.capacity.len() as u8; MOST_ORDERS];
    State { latest, limit: start.limit, last: start.last, ..NO_STATE }
}

/// What is said, in the product's numbers, beside a state: noughts where the search goes on, and beside a cause.
pub fn reply_of(said: Said, state: State) -> Round {
    let ended = said != Said::GoesOn;
    let counts = match said {
        Said::GoesOn => Ok(Counts { pairs: 0, rounds: 0 }),
        Said::Ended(counts) => Ok(counts),
        Said::Refused(refusal) => Err(refusal),
    };
    let Counts { pairs, rounds } = counts.unwrap_or(Counts { pairs: 0, rounds: 0 });
    Round { cause: cause_of(&counts), ended, pairs, rounds, state }
}

/// A search of both, each in areas of its own.
pub struct Both<'a> {
    sheet: &'a Sheet,
    exported: ExportedSheet,
    areas: SearchAreas,
    state: State,
    own: Watched,
    own_areas: watching::SearchAreas,
    /// What was said last, and how many rounds were made.
    said: Said,
    rounds: usize,
    /// What was seen last.
    seen: Vec<Pair>,
}

impl Both<'_> {
    /// Both start with areas of these lengths, or refuse for the same cause; then beside it stand noughts. No area is changed.
    pub fn start(sheet: &Sheet, lengths: [usize; 3]) -> Result<Both<'_>, Refusal> {
        let [pairs, train_of_order, times] = lengths;
        let answer = Watched::start(sheet, [pairs / 2, train_of_order, times]);
        let (exported, mut areas) = (ExportedSheet::from(sheet), SearchAreas::of_lengths(lengths));
        let start = exported.start_in(&mut areas);
        assert_eq!(start.cause, cause_of(&answer), "{lengths:?} {sheet:?}");
        let first = answer.as_ref().map_or(NO_STATE, |_| first_state(sheet, &start.state));
        assert_eq!(start.state, first, "{lengths:?} {sheet:?}");
        assert!(areas.guarded_but([0; 3]), "{lengths:?} {sheet:?}");
        let own_areas = watching::SearchAreas {
            pairs: vec![Pair::default(); pairs / 2],
            train_of_order: vec![0; train_of_order],
            times: vec![0; times],
        };
        let (said, rounds, seen) = (Said::GoesOn, 0, Vec::new());
        Ok(Both { sheet, exported, areas, state: start.state, own: answer?, own_areas, said, rounds, seen })
    }

    pub fn sheet(&self) -> &Sheet {
        self.sheet
    }

    pub fn said(&self) -> Said {
        self.said
    }

    pub fn rounds(&self) -> usize {
        self.rounds
    }

    /// Both make a round, or say the end again, and leave the same in the areas.
    pub fn round(&mut self) {
        let (said_before, before) = (self.said, self.state);
        let at_end = said_before != Said::GoesOn;
        self.said = self.own.round(self.sheet, &mut self.own_areas);
        self.rounds += usize::from(!at_end);
        let reply = self.exported.round_in(&before, &mut self.areas);
        assert_eq!(reply, reply_of(self.said, self.foretold()), "{:?}", self.sheet);
        self.state = reply.state;
        assert!(!at_end || (self.said, self.state) == (said_before, before), "{:?}", self.sheet);
        self.check_areas();
    }

    /// The product's state, whole, after a round that the independent search has made: it has that search's trains and latest trains, and behind the sheet's
    /// orders what was there. Where step 2 stopped the round, which is an end that leaves enough places, both stay as they were.
    fn foretold(&self) -> State {
        let Both { sheet, own, own_areas, said, rounds, .. } = self;
        let (pairs, ended) = (own.look(&own_areas.pairs), *said != Said::GoesOn);
        let mut state = State { pairs: pairs.len(), rounds: *rounds, ended: u8::from(ended), ..self.state };
        if let Some(pair) = pairs.last() {
            (state.last, state.limit) = (pair.arrival, pair.lateness);
        }
        if !(ended && leaves_places(&own.search.latest, &sheet.capacity)) {
            put_first(&own.search.train, &mut state.train);
            put_first(&own.search.latest, &mut state.latest);
        }
        state
    }

    /// Both show the same pairs, and what was seen before stays. Gives whether the last pair was replaced since.
    pub fn look(&mut self) -> bool {
        let count = look(&self.state, self.areas.pairs.lent());
        let pairs = self.own.look(&self.own_areas.pairs).to_vec();
        assert_eq!((count, self.state.pairs), (pairs.len(), count), "{:?}", self.sheet);
        assert!(is_later(&self.seen, &pairs), "{:?} {pairs:?} {:?}", self.seen, self.sheet);
        self.check_areas();
        let replaced = self.seen.last().is_some_and(|last| pairs[self.seen.len() - 1] != *last);
        self.seen = pairs;
        replaced
    }

    /// The product's areas hold what the independent ones hold, between guards.
    fn check_areas(&self) {
        let Both { sheet, areas, own_areas, .. } = self;
        let numbers = numbers_of(self.own.look(&own_areas.pairs));
        let [trains, times] = if numbers.is_empty() { [0; 2] } else { PlanAreas::least(sheet) };
        assert_eq!(areas.pairs.first(numbers.len()), numbers, "{sheet:?}");
        assert_eq!(areas.plan.train_of_order.first(trains), &own_areas.train_of_order[..trains], "{sheet:?}");
        assert_eq!(areas.plan.times.first(times), &own_areas.times[..times], "{sheet:?}");
        assert!(areas.guarded_but([numbers.len(), trains, times]), "{sheet:?}");
    }

    /// The end is what the product's own listing, and its choice by the last listed arrival, come to. Gives whether a train is empty in that plan.
    pub fn check_end(&self) -> bool {
        let Both { sheet, areas, said, .. } = self;
        let listed = (PRODUCT.list)(sheet);
        let pairs = listed.as_ref().map_or(Vec::new(), |listing| listing.pairs.clone());
        let end = match listed {
            Ok(listing) => Said::Ended(Counts { pairs: pairs.len(), rounds: listing.rounds }),
            Err(refusal) => Said::Refused(refusal),
        };
        assert_eq!(*said, end, "{sheet:?}");
        assert_eq!(areas.pairs.first(2 * pairs.len()), numbers_of(&pairs), "{sheet:?}");
        let Some(last) = pairs.last() else { return false };
        let plan = (PRODUCT.choose)(sheet, last.arrival).expect("a listed arrival").plan;
        let times = time_numbers(&plan.times);
        assert_eq!(areas.plan.train_of_order.first(plan.train_of_order.len()), plan.train_of_order, "{sheet:?}");
        assert_eq!(areas.plan.times.first(times.len()), times, "{sheet:?}");
        !plan.empty_trains().is_empty()
    }
}
