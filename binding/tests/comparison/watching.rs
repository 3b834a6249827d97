//! The search by single rounds: lists of calls on drawn and stored sheets, refused starts, and damaged states.

use crate::filled::filled;
use crate::foretold::{next_state, write};
use crate::ladders::ladders;
use crate::lengths::longer;
use crate::share::Share;
use crate::size::Size;
use crate::spoil::spoil;
use crate::states::{damaged, is_taken, DamagedTrains};
use crate::watched::{reply_of, Both, NO_STATE};
use binding::areas::SearchAreas;
use binding::calls::{look, Round, Start, State};
use binding::exported::ExportedSheet;
use native::admission::admit;
use native::draw::small;
use native::ladder::Ladder;
use native::limits::MOST_ORDERS;
use native::planner::{figure, Counts};
use native::reader::read;
use native::refusal::*;
use native::rng::Rng;
use native::sheet::{Form, Sheet, FORMS};
use native::stored::stored_sheets;
use native::watching::Said;
use std::mem::{offset_of, size_of, size_of_val};

/// What was met.
#[derive(Debug, Default)]
struct Met {
    share: Share,
    calls: usize,
    rounds: usize,
    replaced: usize,
    refused: usize,
}

impl Met {
    fn print(&self, what: &str) {
        let Met { share, calls, rounds, replaced, refused } = self;
        print!("watching, {what}: {calls} calls compared of searches on {share}; ");
        println!("{rounds} rounds, {refused} searches without a schedule, {replaced} looks at a replaced pair");
    }

    /// Meets a search at its end.
    fn meet(&mut self, search: &Both) {
        self.share.meet(search.sheet(), search.check_end());
        self.rounds += search.rounds();
        self.refused += usize::from(matches!(search.said(), Said::Refused(_)));
    }

    /// A drawn list of calls of searches that take turns, until each has ended, and some further ones.
    fn take_turns(&mut self, searches: &mut [Both], rng: &mut Rng) {
        let mut further = 2 * searches.len();
        while further > 0 {
            let at = rng.index(searches.len());
            if rng.one_in(3) {
                self.replaced += usize::from(searches[at].look());
            } else {
                searches[at].round();
            }
            self.calls += 1;
            further -= usize::from(searches.iter().all(|search| search.said() != Said::GoesOn));
        }
        searches.iter().for_each(|search| self.meet(search));
    }

    /// The whole search, with a look behind each round.
    fn run(&mut self, sheet: &Sheet, rng: &mut Rng) {
        let mut search = started(sheet, rng);
        while search.said() == Said::GoesOn {
            search.round();
            self.replaced += usize::from(search.look());
            self.calls += 2;
            assert!(search.rounds() <= figure(sheet), "{sheet:?}");
        }
        self.meet(&search);
        (0..2).for_each(|_| search.round());
    }
}

/// A search of both on an admitted sheet, in areas that are just long enough or longer.
fn started<'a>(sheet: &'a Sheet, rng: &mut Rng) -> Both<'a> {
    let mut lengths = SearchAreas::least(sheet).map(|length| length + if rng.one_in(2) { rng.index(4) } else { 0 });
    if rng.one_in(4) {
        lengths[0] = longer(sheet, rng);
    }
    Both::start(sheet, lengths).expect("an admitted sheet")
}

/// As a C compiler lays out what include/joshkamber.h declares, on x86-64.
#[test]
fn layout() {
    assert_eq!((offset_of!(State, pairs), offset_of!(State, rounds), offset_of!(State, limit)), (0, 8, 16));
    assert_eq!((offset_of!(State, last), offset_of!(State, ended), offset_of!(State, train)), (24, 28, 29));
    assert_eq!((offset_of!(State, latest), size_of::<State>()), (229, 432));
    assert_eq!(size_of_val(&NO_STATE.train) + size_of_val(&NO_STATE.latest), 2 * MOST_ORDERS, "two bytes an order");
    assert_eq!((offset_of!(Start, cause), offset_of!(Start, state), size_of::<Start>()), (0, 16, 448));
    assert_eq!((offset_of!(Round, cause), offset_of!(Round, ended), offset_of!(Round, pairs)), (0, 16, 24));
    assert_eq!((offset_of!(Round, rounds), offset_of!(Round, state), size_of::<Round>()), (32, 40, 472));
}

#[test]
fn guards_tell_what_was_written() {
    let lent = SearchAreas::of_lengths([4, 2, 3]);
    let mut areas = lent.clone();
    areas.pairs.lent()[1] = 0;
    areas.plan.train_of_order.lent()[1] = 1;
    areas.plan.times.lent()[0] = 0;
    assert!(areas.guarded_but([2, 2, 1]) && areas.same_but([2, 2, 1], &lent) && areas != lent);
    for fewer in [[1, 2, 1], [2, 1, 1], [2, 2, 0]] {
        assert!(!areas.guarded_but(fewer) && !areas.same_but(fewer, &lent), "{fewer:?}");
    }
}

#[test]
fn random_sheets() {
    let mut rng = Rng::new(112);
    for form in FORMS {
        for (turns, size) in [(4_000, Size::UpTo(9)), (800, Size::UpTo(32))] {
            let mut met = Met::default();
            for _ in 0..turns {
                let sheets = [(); 2].map(|()| size.draw(&mut rng, form));
                let mut searches: Vec<Both> = sheets.iter().map(|sheet| started(sheet, &mut rng)).collect();
                met.take_turns(&mut searches, &mut rng);
            }
            met.print(&format!("{form:?}, {size}"));
            assert!(met.replaced > turns / 4 && met.refused > turns / 20 && met.share.is_good(), "{met:?}");
        }
        let mut met = Met::default();
        (0..150).for_each(|_| met.run(&Size::Any.draw(&mut rng, form), &mut rng));
        met.print(&format!("{form:?}, {}", Size::Any));
        assert!(met.replaced > 1_000 && met.share.is_good(), "{met:?}");
    }
}

#[test]
fn many_rounds() {
    let mut rng = Rng::new(113);
    let mut met = Met::default();
    for (release, stir) in [(0, 0), (300, 3), (3_000, 50)] {
        let ladder = Ladder { release, stir, shuffled: stir > 0 };
        ladders(&mut rng, 60, 12, ladder).iter().for_each(|sheet| met.run(sheet, &mut rng));
    }
    met.print("ladders");
    assert!(met.rounds > 100 * met.share.sheets && met.share.is_good(), "{met:?}");
}

#[test]
fn filled_lists() {
    let mut rng = Rng::new(123);
    let mut met = Met::default();
    (0..300).for_each(|_| met.run(&filled(&mut rng), &mut rng));
    met.print("filled lists");
    assert!(met.replaced == 0 && met.share.is_good(), "{met:?}");
}

#[test]
fn stored_sheets_agree() {
    let mut rng = Rng::new(114);
    let mut met = Met::default();
    for stored in stored_sheets() {
        if let Ok(reading) = read(&stored.text, Form::of(&stored.text)) {
            met.run(&reading.sheet, &mut rng);
        }
    }
    met.print("stored");
    assert!(met.share.sheets > 120 && met.refused > 5 && met.share.is_good(), "{met:?}");
}

/// Lengths that are enough for the sheet, and those of which one or all are too short.
fn lengths_around(sheet: &Sheet, rng: &mut Rng) -> Vec<[usize; 3]> {
    let least = SearchAreas::least(sheet);
    let mut all = vec![least, least.map(|length| length + rng.index(4)), [0; 3]];
    all.push([longer(sheet, rng), least[1], least[2]]);
    for area in 0..least.len() {
        for missing in [1, 1 + rng.index(least[area].max(1))] {
            let mut short = least;
            short[area] = least[area].saturating_sub(missing);
            all.push(short);
        }
    }
    all
}

/// A start gives the first refusal in document 01's order, for all three areas. A round on what a start refuses, from a state of the sheet before it was
/// spoiled, is told as no search.
#[test]
fn refused_starts() {
    let mut rng = Rng::new(115);
    let (mut met, mut share) = ([0; NUMBER_COUNT], Share::default());
    for turn in 0..15_000 {
        let mut sheet = small(&mut rng, FORMS[turn % 2], 9);
        let (state, _) = some_search(&sheet, &mut rng);
        (0..rng.index(4)).for_each(|_| spoil(&mut rng, &mut sheet));
        if admit(&sheet).is_ok() {
            share.meet_searched(&sheet);
        }
        for lengths in lengths_around(&sheet, &mut rng) {
            met[Both::start(&sheet, lengths).err().map_or(0, |refusal| refusal.number)] += 1;
            check_round(&sheet, &state, &mut SearchAreas::of_lengths(lengths));
        }
    }
    let (starts, refused) = (met.iter().sum::<usize>(), met[1..].iter().sum::<usize>());
    println!("watching, refused starts: {starts} starts compared, {refused} refused; admitted {share}");
    let possible = [0, OUT_OF_RANGE, TOO_MANY, KIND_MISSING, OUT_OF_ORDER, TOO_FEW_PLACES, AREA_TOO_SHORT];
    let others = (0..NUMBER_COUNT).filter(|number| !possible.contains(number));
    assert!(possible.iter().all(|&number| met[number] > 1_000), "{met:?}");
    assert!(others.map(|number| met[number]).sum::<usize>() == 0, "{met:?}");
    assert!(share.is_good(), "{share:?}");
}

/// What is said of the state that a round call gives back.
fn said_of(state: &State) -> Said {
    match state {
        State { ended: 0, .. } => Said::GoesOn,
        State { pairs: 0, .. } => Said::Refused(Refusal::of_all(NO_SCHEDULE)),
        State { pairs, rounds, .. } => Said::Ended(Counts { pairs: *pairs, rounds: *rounds }),
    }
}

/// A round from any state: told as no search, or as its end again, with nothing changed; or made, and then it is right for what stands in the state.
fn check_round(sheet: &Sheet, state: &State, areas: &mut SearchAreas) -> Round {
    let (lengths, mut expected) = (areas.lengths(), areas.clone());
    let reply = ExportedSheet::from(sheet).round_in(state, areas);
    if !is_taken(state, sheet, lengths) {
        let no_search = Said::Ended(Counts { pairs: 0, rounds: 0 });
        assert_eq!(reply, reply_of(no_search, *state), "{lengths:?} {sheet:?}");
    } else if state.ended != 0 {
        assert_eq!(reply, reply_of(said_of(state), *state), "{sheet:?}");
    } else {
        let (next, recorded) = next_state(state, sheet);
        assert_eq!(reply, reply_of(said_of(&next), next), "{state:?} {sheet:?}");
        recorded.iter().for_each(|entry| write(entry, next.pairs, &mut expected));
    }
    assert!(areas.same_but([0; 3], &expected), "{state:?} {lengths:?} {sheet:?}");
    reply
}

/// A look at any state: no more pairs than the area holds, and nothing is changed.
fn check_look(state: &State, areas: &mut SearchAreas) {
    let (most, found) = (areas.lengths()[0] / 2, areas.clone());
    let seen = look(state, areas.pairs.lent());
    assert_eq!(seen, if state.pairs <= most { state.pairs } else { 0 });
    assert!(areas.same_but([0; 3], &found), "{state:?}");
}

/// A search on the sheet after some rounds, in areas that may be too short.
fn some_search(sheet: &Sheet, rng: &mut Rng) -> (State, SearchAreas) {
    let mut areas = SearchAreas::of_lengths(SearchAreas::least(sheet));
    let mut state = ExportedSheet::from(sheet).start_in(&mut areas).state;
    (0..rng.index(4)).for_each(|_| state = check_round(sheet, &state, &mut areas).state);
    if rng.one_in(8) {
        let mut lengths = areas.lengths();
        lengths[rng.index(3)] -= 1;
        areas = SearchAreas::of_lengths(lengths);
    }
    (state, areas)
}

/// Calls that go on from a damaged state come to an end.
#[test]
fn damaged_states() {
    let mut rng = Rng::new(116);
    let (mut other, mut calls, mut no_search, mut made) = (NO_STATE, 0, 0, 0);
    let (mut share, mut trains) = (Share::default(), DamagedTrains::default());
    for turn in 0..40_000 {
        let sheet = small(&mut rng, FORMS[turn % 2], if turn % 4 == 0 { 32 } else { 9 });
        let (sound, mut areas) = some_search(&sheet, &mut rng);
        let mut state = damaged(&mut rng, &sound, &other, &sheet);
        let mut rounds = 0;
        share.meet_searched(&sheet);
        trains.meet(&state, &sound, &sheet, areas.lengths());
        loop {
            check_look(&state, &mut areas);
            let reply = check_round(&sheet, &state, &mut areas);
            calls += 2;
            rounds += 1;
            assert!(rounds <= figure(&sheet), "{sheet:?}");
            state = reply.state;
            if reply.ended {
                no_search += usize::from(reply == reply_of(Said::Ended(Counts { pairs: 0, rounds: 0 }), state));
                break;
            }
            made += 1;
        }
        other = sound;
    }
    print!("watching, damaged states: {calls} calls on {share}; ");
    println!("{made} rounds made and gone on from, {no_search} states told as of no search; {trains}");
    assert!(no_search > 10_000 && made > 2_000 && share.is_good(), "{no_search} {made} {share:?}");
    assert!(trains.is_good(), "{trains:?}");
}
