//! Replanning behind trains that have gone: against every schedule that begins with them, the rounds word for word, and ordinary planning.

use crate::judge::good_gone;
use native::agreement::agrees_anew;
use native::cases::{cases, sheet_of, DAY};
use native::checking::ForeignPlan;
use native::departed::{drawn_gone, first_trains, gone, small_sheet};
use native::draw::{big, drawn_size, small};
use native::every_plan::plan_count;
use native::gone::{Gone, Left};
use native::ladder::{ladder_windows, short_ladder_windows, Ladder};
use native::listing::{schedules, seen_behind, seen_with_all_departures_behind};
use native::plan::{Listing, Pair, Plan, Times};
use native::planner::{choose, figure, list};
use native::print::INDEPENDENT;
use native::prompt::{least_within_behind, Soonest, Tally};
use native::reader::read;
use native::refusal::*;
use native::replan::{rechoose, relist, search_anew};
use native::rng::Rng;
use native::schedule::pair_of;
use native::search::search;
use native::sheet::{Form, Sheet};
use native::stored::stored_sheets;
use native::trace::{trace_behind, Outcome};
use native::wishes::wishes;
use std::collections::BTreeMap;

/// What was met: gone parts with no schedule behind, with one pair, with several; of those with pairs, how many have no order gone, no train gone, and no
/// order left, and in how many the worst of the orders gone made a round the last; and all rounds.
#[derive(Debug, Default)]
struct Met {
    fronts: [usize; 3],
    no_order_gone: usize,
    no_train_gone: usize,
    no_order_left: usize,
    worst_gone: usize,
    rounds: usize,
}

impl Met {
    fn meet(&mut self, sheet: &Sheet, gone: &Gone, listed: &Result<Listing, Refusal>) {
        let pairs = listed.as_ref().map_or(0, |listing| listing.pairs.len());
        self.fronts[pairs.min(2)] += 1;
        let (Ok(listing), Ok(left)) = (listed, Left::of(sheet, gone)) else { return };
        self.rounds += listing.rounds;
        self.no_train_gone += usize::from(gone.trains.departures.is_empty());
        self.no_order_gone += usize::from(gone.trains.rows.is_empty());
        self.no_order_left += usize::from(left.sheet.orders.is_empty());
        self.worst_gone += usize::from(listing.pairs.last().map(|pair| pair.lateness) == left.ahead.worst);
    }

    fn print(&self, what: &str) {
        let Met { fronts: [none, one, more], no_order_gone, no_order_left, worst_gone, rounds, .. } = self;
        print!("replanning, {what}: {} gone parts compared ({none} with no schedule behind, ", none + one + more);
        print!("{rounds} rounds, {more} with several pairs, {no_order_gone} without an order, {no_order_left} with every order, ");
        println!("{worst_gone} with the worst lateness)");
    }

    fn each_above(&self, least: usize) -> bool {
        let Met { fronts, no_order_gone, no_train_gone, no_order_left, worst_gone, .. } = self;
        let others = [no_order_gone, no_train_gone, no_order_left, worst_gone];
        fronts.iter().chain(others).all(|&count| count > least)
    }
}

/// One that is not refused.
fn good_part(rng: &mut Rng, sheet: &Sheet) -> Gone {
    let mut parts = std::iter::repeat_with(|| drawn_gone(rng, sheet));
    parts.find(|gone| good_gone(sheet, gone)).expect("there are parts without end")
}

/// Every schedule, as its departures and the train (from 0) of each order, with its pair.
type Schedules = BTreeMap<(Vec<u32>, Vec<usize>), Pair>;

/// The pairs that no other pair beats or equals in both, of the schedules that begin with the gone trains.
fn front_of_all(schedules: &Schedules, gone: &Gone) -> Vec<Pair> {
    let of_model = |departures: &[u32], train: &[usize]| Plan {
        train_of_order: train.iter().map(|&i| i as u8 + 1).collect(),
        times: departures.iter().map(|&departure| Times { departure, ..Times::default() }).collect(),
    };
    let begin = schedules.iter().filter(|((departures, train), _)| gone.begins(&of_model(departures, train)));
    let mut pairs: Vec<Pair> = begin.map(|(_, pair)| *pair).collect();
    pairs.sort_by_key(|pair| (pair.arrival, pair.lateness));
    let mut front: Vec<Pair> = Vec::new();
    for pair in pairs {
        if front.last().is_none_or(|last| pair.lateness < last.lateness) {
            front.push(pair);
        }
    }
    front
}

/// Every schedule of small sheets, and of these those that begin with the gone trains.
#[test]
fn every_schedule() {
    const MOST_PLANS: usize = 100_000;
    let (mut rng, mut part_rng) = (Rng::new(32), Rng::new(38));
    let (mut met, mut tally) = (Met::default(), Tally::default());
    let drawn = std::iter::repeat_with(|| small_sheet(&mut rng, 5));
    for sheet in drawn.filter(|sheet| plan_count(sheet) <= MOST_PLANS).take(1_500) {
        let schedules = schedules(&sheet);
        for _ in 0..4 {
            let gone = good_part(&mut part_rng, &sheet);
            let (seen, all) = (seen_behind(&sheet, &gone), seen_with_all_departures_behind(&sheet, &gone));
            let front = front_of_all(&schedules, &gone);
            assert_eq!((seen.front(), all.front()), (front.clone(), front), "{gone:?} {sheet:?}");
            assert!(agrees_anew(&INDEPENDENT, &sheet, &gone, &all), "{gone:?} {sheet:?}");
            met.meet(&sheet, &gone, &relist(&sheet, &gone));
            tally.check_small_anew(&INDEPENDENT, &sheet, &gone);
            check_passes(&sheet, &gone);
        }
    }
    met.print("every schedule");
    tally.print("planned anew, every schedule");
    assert!(met.each_above(100) && tally.needless == 0 && tally.empty.min(tally.waiting) > 250, "{met:?} {tally:?}");
}

/// The passes over what is left come to the least times of every schedule within each lateness, and within one less than the least.
fn check_passes(sheet: &Sheet, gone: &Gone) {
    let soonest = Soonest::behind(sheet, gone);
    let latenesses = soonest.latenesses();
    for lateness in latenesses.iter().copied().chain(latenesses.first().map(|least| least - 1)) {
        assert_eq!(
            least_within_behind(sheet, gone, lateness),
            soonest.within(lateness),
            "{lateness} {gone:?} {sheet:?}"
        );
    }
}

/// Every loading of sheets of up to nine wagons.
#[test]
fn every_loading() {
    let mut rng = Rng::new(33);
    let mut met = Met::default();
    for (sheets, most_orders) in [(6_000, 6), (2_000, 7), (150, 9)] {
        for _ in 0..sheets {
            let sheet = small_sheet(&mut rng, most_orders);
            let gone = good_part(&mut rng, &sheet);
            assert!(agrees_anew(&INDEPENDENT, &sheet, &gone, &seen_behind(&sheet, &gone)), "{gone:?} {sheet:?}");
            met.meet(&sheet, &gone, &relist(&sheet, &gone));
        }
    }
    met.print("every loading");
    assert!(met.each_above(100), "{met:?}");
}

/// The replanner follows the rounds over what is left, word for word; neither they nor the pairs are more than the figure, of what is left or of the whole
/// sheet; no train waits needlessly; every chosen plan begins with the gone trains.
fn check_large(sheet: &Sheet, gone: &Gone, met: &mut Met, tally: &mut Tally) {
    let left = Left::of(sheet, gone).expect("a good gone part");
    let listed = relist(sheet, gone);
    met.meet(sheet, gone, &listed);
    if left.sheet.spare_places().is_none() {
        return assert_eq!(listed, Err(Refusal::of_all(NO_SCHEDULE)), "{gone:?} {sheet:?}");
    }
    let trace = trace_behind(&left.sheet, left.ahead);
    if trace.outcomes == [Outcome::Stopped] {
        return assert_eq!(listed, Err(Refusal::of_all(NO_SCHEDULE)), "{gone:?} {sheet:?}");
    }
    let pairs = trace.entries.iter().map(|entry| entry.pair).collect::<Vec<Pair>>();
    let rounds = trace.outcomes.len();
    let most = figure(&left.sheet);
    assert!(rounds <= most && most <= figure(sheet), "{rounds} {gone:?} {sheet:?}");
    assert_eq!(listed, Ok(Listing { pairs, rounds }), "{gone:?} {sheet:?}");
    let recorded = search_anew(sheet, gone).expect("a listed pair");
    for (entry, own) in recorded.entries.iter().zip(&trace.entries) {
        assert_eq!(entry.plan, left.whole(&own.plan), "{gone:?} {sheet:?}");
        assert!(gone.begins(&entry.plan) && gone.empty_trains_hurry(sheet, &entry.plan), "{gone:?} {sheet:?}");
        assert_eq!(pair_of(sheet, &entry.plan), Some(entry.pair), "{gone:?} {sheet:?}");
    }
    tally.check_large_anew(&INDEPENDENT, sheet, gone);
}

/// Drawn sheets of any size, and ladders, which make many rounds.
#[test]
fn drawn_sheets() {
    let mut rng = Rng::new(34);
    let (mut met, mut tally) = (Met::default(), Tally::default());
    for turn in 0..3_000 {
        let sheet = if turn % 10 == 0 {
            let (n, q) = drawn_size(&mut rng);
            big(&mut rng, Form::Windows, n, q)
        } else {
            small_sheet(&mut rng, 30)
        };
        let gone = good_part(&mut rng, &sheet);
        check_large(&sheet, &gone, &mut met, &mut tally);
    }
    met.print("drawn");
    tally.print("planned anew, drawn");
    assert!(met.each_above(40) && tally.needless == 0 && tally.empty.min(tally.waiting) > 1_000, "{met:?} {tally:?}");
}

#[test]
fn ladders() {
    let mut rng = Rng::new(35);
    let (mut met, mut tally) = (Met::default(), Tally::default());
    for (release, stir, opens) in [(0, 0, 0), (300, 3, 300), (3_000, 50, 0)] {
        let ladder = Ladder { release, stir, shuffled: stir > 0 };
        let short = short_ladder_windows(&mut rng, 60, vec![10; 12], ladder, opens);
        for sheet in [ladder_windows(&mut rng, 60, 12, ladder, opens), short] {
            let plan = ForeignPlan::from(&search(&sheet).expect("a plan").entries[0].plan);
            for count in 0..12 {
                let mut gone = first_trains(&mut rng, &plan, count);
                gone.minute = gone.trains.departures.last().copied().unwrap_or(0);
                check_large(&sheet, &gone, &mut met, &mut tally);
            }
        }
    }
    met.print("ladders");
    assert!(tally.needless == 0 && tally.plans > 60 && met.rounds > 2_000, "{met:?} {tally:?}");
}

/// A sheet that makes more rounds is compared with ordinary planning by its listing alone.
const MOST_ROUNDS: usize = 200;

#[test]
fn stored_window_sheets() {
    let mut rng = Rng::new(36);
    let (mut met, mut tally) = (Met::default(), Tally::default());
    for stored in stored_sheets().iter().filter(|stored| Form::of(&stored.text) == Form::Windows) {
        let Ok(reading) = read(&stored.text, Form::Windows) else { continue };
        let (sheet, listed) = (&reading.sheet, list(&reading.sheet));
        if listed.as_ref().is_ok_and(|listing| listing.rounds > MOST_ROUNDS) {
            assert_eq!(relist(sheet, &Gone::default()), listed, "{}", stored.name);
        } else {
            (0..3).for_each(|_| check_large(sheet, &good_part(&mut rng, sheet), &mut met, &mut tally));
            check_ordinary(sheet);
        }
    }
    met.print("stored");
    assert!(met.fronts.iter().all(|&count| count > 5) && tally.needless == 0, "{met:?} {tally:?}");
}

/// With no train gone and minute 0 both answer as the ordinary calls.
fn check_ordinary(sheet: &Sheet) {
    let (none, listed) = (Gone::default(), list(sheet));
    assert_eq!(relist(sheet, &none), listed, "{sheet:?}");
    for wish in wishes(&listed.map_or(Vec::new(), |listing| listing.pairs)) {
        assert_eq!(rechoose(sheet, &none, wish), choose(sheet, wish), "{wish} {sheet:?}");
    }
}

#[test]
fn nothing_gone() {
    let mut rng = Rng::new(37);
    assert_eq!(gone(0, &[], &[]), Gone::default());
    check_ordinary(&sheet_of(DAY));
    cases().iter().take(7).for_each(|text| check_ordinary(&sheet_of(text)));
    for _ in 0..3_000 {
        check_ordinary(&small(&mut rng, Form::Windows, 20));
    }
    for _ in 0..60 {
        let (n, q) = drawn_size(&mut rng);
        check_ordinary(&big(&mut rng, Form::Windows, n, q));
    }
}
