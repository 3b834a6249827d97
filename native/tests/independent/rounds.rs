use native::draw::{big, small};
use native::ladder::{ladder_timetable, ladder_windows, short_ladder_timetable, short_ladder_windows, Ladder};
use native::limits::{MOST_CAPACITY, MOST_ORDERS, MOST_TRAINS};
use native::plan::{Listing, Pair};
use native::planner::{bound, choose, list};
use native::refusal::{Refusal, NO_SCHEDULE, WISH_TOO_EARLY};
use native::rng::Rng;
use native::sheet::{Sheet, FORMS};
use native::trace::{trace, Outcome};
use native::wishes::wishes;

/// The planner follows the rounds word for word.
fn check_rounds(sheet: &Sheet) {
    let trace = trace(sheet);
    let pairs: Vec<Pair> = trace.entries.iter().map(|entry| entry.pair).collect();
    let listed = match trace.outcomes[..] {
        [Outcome::Stopped] => Err(Refusal::of_all(NO_SCHEDULE)),
        _ => Ok(Listing { pairs: pairs.clone(), rounds: trace.outcomes.len() }),
    };
    assert_eq!(list(sheet), listed, "{sheet:?}");
    for wish in wishes(&pairs) {
        let in_time = trace.entries.iter().take_while(|entry| entry.pair.arrival <= wish).last();
        let number = if pairs.is_empty() { NO_SCHEDULE } else { WISH_TOO_EARLY };
        assert_eq!(choose(sheet, wish), in_time.cloned().ok_or(Refusal::of_all(number)), "{wish} {sheet:?}");
    }
}

#[test]
fn small_and_big_sheets() {
    let mut rng = Rng::new(4);
    for _ in 0..2_000 {
        FORMS.iter().for_each(|&form| check_rounds(&small(&mut rng, form, 30)));
    }
    for _ in 0..60 {
        let n = rng.within(MOST_TRAINS as u32, MOST_ORDERS as u32);
        let q = rng.within(n.div_ceil(MOST_CAPACITY), MOST_TRAINS as u32) as usize;
        FORMS.iter().for_each(|&form| check_rounds(&big(&mut rng, form, n, q)));
    }
}

#[test]
fn ladders() {
    let mut rng = Rng::new(7);
    for (release, stir, opens) in [(0, 0, 0), (300, 3, 300), (3_000, 50, 0)] {
        let ladder = Ladder { release, stir, shuffled: stir > 0 };
        check_rounds(&ladder_windows(&mut rng, 60, 12, ladder, opens));
        check_rounds(&ladder_timetable(&mut rng, 60, 12, ladder));
    }
}

/// With places to spare, and without changes of the due times, each round has one order move by one train: no search makes more rounds.
#[test]
fn short_ladders() {
    let mut rng = Rng::new(20);
    let trains = |places: u32| [vec![20, 20, 20], vec![places; 9]].concat();
    for (release, stir, opens, places) in [(0, 0, 0, 20), (300, 0, 300, 1), (300, 3, 300, 5), (3_000, 50, 0, 20)] {
        let ladder = Ladder { release, stir, shuffled: stir > 0 };
        let sheets = [
            short_ladder_windows(&mut rng, 50, trains(places), ladder, opens),
            short_ladder_timetable(&mut rng, 50, trains(places), ladder),
        ];
        for sheet in sheets {
            check_rounds(&sheet);
            let rounds = list(&sheet).expect("a ladder has a plan").rounds;
            assert!(stir > 0 || Ok(rounds) == bound(&sheet), "{rounds} {sheet:?}");
        }
    }
}
