//! What a round makes of a state that is taken, of whatever search it is, by the rounds word for word. These do not ask for the state's trains: from
//! whatever orderly ones a loading begins, none at all among them, it comes to the same.

use crate::listed::numbers_of;
use binding::areas::{PairsArea, SearchAreas};
use binding::calls::State;
use native::plan::{time_numbers, Entry, Plan};
use native::planner::put_first;
use native::sheet::Sheet;
use native::trace::{round, Round};

/// The next state, and what the round records, if anything. Where step 2 stops it, trains and latest trains stay; what stands behind the sheet's orders
/// always stays.
pub fn next_state(state: &State, sheet: &Sheet) -> (State, Option<Entry>) {
    let latest: Vec<usize> = state.latest[..sheet.orders.len()].iter().map(|&last| last.into()).collect();
    let Round { train, rest } = round(sheet, &latest, Some(state.limit));
    let mut next = State { rounds: state.rounds + 1, ended: 1, ..*state };
    let Some(rest) = rest else { return (next, None) };
    let lowered: Vec<u8> = rest.latest.iter().map(|&last| last as u8).collect();
    put_first(&train, &mut next.train);
    put_first(&lowered, &mut next.latest);
    next.ended = u8::from(rest.crowded);
    if !rest.better {
        return (next, None);
    }
    let replaces = state.pairs > 0 && state.last == rest.pair.arrival;
    next.pairs += usize::from(!replaces);
    (next.last, next.limit) = (rest.pair.arrival, rest.pair.lateness);
    (next, Some(Entry { pair: rest.pair, plan: Plan { train_of_order: train, times: rest.times } }))
}

/// Writes what is recorded: the pair as the last of so many, and the plan.
pub fn write(Entry { pair, plan }: &Entry, pairs: usize, areas: &mut SearchAreas) {
    put_first(&numbers_of(&[*pair]), &mut areas.pairs.lent()[PairsArea::length_of(pairs - 1)..]);
    put_first(&plan.train_of_order, areas.plan.train_of_order.lent());
    put_first(&time_numbers(&plan.times), areas.plan.times.lent());
}
