//! The search by single rounds: known sheets call by call, and the start's refusals; then drawn and stored sheets, each call against the rounds word for
//! word, and the end against the unbroken search.

use crate::areas::{late, too_few_places, GUARD_PAIR, GUARD_TIME, GUARD_TRAIN};
use native::cases::{cases, sheet_of, CASE_A};
use native::draw::{big, drawn_size, small};
use native::finality::is_later;
use native::ladder::{ladder_timetable, ladder_windows, Ladder};
use native::plan::{time_numbers, Pair};
use native::planner::{figure, put_first, Counts};
use native::reader::read;
use native::refusal::*;
use native::rng::Rng;
use native::search::{search, Recorded};
use native::sheet::{Form, Sheet, FORMS};
use native::stored::stored_sheets;
use native::trace::trace;
use native::watching::{Said, SearchAreas, Watched};

const NONE: Said = Said::Refused(Refusal { number: NO_SCHEDULE, returned: 0 });

fn ended(pairs: usize, rounds: usize) -> Said {
    Said::Ended(Counts { pairs, rounds })
}

/// Areas of these lengths, filled with guards.
fn guarded([pairs, train_of_order, times]: [usize; 3]) -> SearchAreas {
    SearchAreas {
        pairs: vec![GUARD_PAIR; pairs],
        train_of_order: vec![GUARD_TRAIN; train_of_order],
        times: vec![GUARD_TIME; times],
    }
}

/// A search with its sheet and its areas.
#[derive(Clone, Debug, PartialEq, Eq)]
pub struct Run<'a> {
    sheet: &'a Sheet,
    areas: SearchAreas,
    search: Watched,
}

impl Run<'_> {
    /// With areas that are so much longer than needed.
    pub fn start(sheet: &Sheet, spare: [usize; 3]) -> Run<'_> {
        let (n, q) = sheet.size();
        let lengths = [figure(sheet) + spare[0], n + spare[1], 3 * q + spare[2]];
        Run { sheet, areas: guarded(lengths), search: Watched::start(sheet, lengths).expect("an admitted sheet") }
    }

    pub fn round(&mut self) -> Said {
        self.search.round(self.sheet, &mut self.areas)
    }

    /// A look changes nothing.
    pub fn look(&self) -> Vec<Pair> {
        let before = self.clone();
        let pairs = self.search.look(&self.areas.pairs).to_vec();
        assert_eq!(*self, before);
        pairs
    }

    /// At the end the areas hold the unbroken search's list and last plan, and guards behind them.
    pub fn holds(&self, recorded: &Recorded) -> bool {
        let SearchAreas { pairs, train_of_order, times } = &self.areas;
        let mut areas = guarded([pairs.len(), train_of_order.len(), times.len()]);
        put_first(&recorded.listing().pairs, &mut areas.pairs);
        let plan = &recorded.entries.last().expect("a recorded pair").plan;
        put_first(&plan.train_of_order, &mut areas.train_of_order);
        put_first(&time_numbers(&plan.times), &mut areas.times);
        self.areas == areas
    }
}

#[test]
fn case_a_call_by_call() {
    let sheet = sheet_of(CASE_A);
    let list = [Pair { arrival: 110, lateness: 150 }, Pair { arrival: 130, lateness: 70 }];
    let mut run = Run::start(&sheet, [1, 1, 1]);
    assert_eq!(run.look(), []);
    assert_eq!(run.areas, guarded([3, 4, 7]));
    assert_eq!(run.round(), Said::GoesOn);
    assert_eq!(run.look(), list[..1]);
    assert_eq!(run.areas.pairs, [&list[..1], &[GUARD_PAIR; 2]].concat());
    assert_eq!(run.areas.train_of_order, [1, 2, 2, GUARD_TRAIN]);
    assert_eq!(run.areas.times, [0, 30, 1, 90, 110, 1, GUARD_TIME]);
    for _ in 0..4 {
        assert_eq!(run.round(), ended(2, 2));
        assert_eq!(run.look(), list);
        assert_eq!(run.areas.pairs, [&list[..], &[GUARD_PAIR]].concat());
        assert_eq!(run.areas.train_of_order, [2, 1, 2, GUARD_TRAIN]);
        assert_eq!(run.areas.times, [40, 70, 1, 100, 130, 1, GUARD_TIME]);
    }
}

/// What is seen after each round, up to the end and its reply, which further rounds repeat.
fn check_calls(text: &str, lists: &[&[(u32, i64)]], end: Said) {
    let sheet = sheet_of(text);
    let mut run = Run::start(&sheet, [0; 3]);
    for (round, list) in (1..).zip(lists) {
        assert_eq!(run.round(), if round == lists.len() { end } else { Said::GoesOn }, "{text}");
        let seen: Vec<(u32, i64)> = run.look().iter().map(|pair| (pair.arrival, pair.lateness)).collect();
        assert_eq!(seen, *list, "{text}");
    }
    let at_end = run.clone();
    assert_eq!((run.round(), run.round()), (end, end), "{text}");
    assert_eq!(run, at_end, "{text}");
    assert!(end != NONE || run.areas == Run::start(&sheet, [0; 3]).areas, "{text}");
}

/// Cases d and f are refused by the first round, and cases e and g end with it; case i is stopped by its second.
#[test]
fn cases_a_to_i() {
    let [a, b, c, d, e, f, g, h, i] = cases();
    check_calls(&a, &[&[(110, 150)], &[(110, 150), (130, 70)]], ended(2, 2));
    check_calls(&b, &[&[(110, 150)], &[(110, 50)]], ended(1, 2));
    check_calls(&c, &[&[(110, 150)], &[(110, 150), (170, 110)]], ended(2, 2));
    check_calls(&d, &[&[]], NONE);
    check_calls(&e, &[&[(1, 1)]], ended(1, 1));
    check_calls(&f, &[&[]], NONE);
    check_calls(&g, &[&[(1, -1)]], ended(1, 1));
    check_calls(&h, &[&[(120, 180)], &[(120, 60)]], ended(1, 2));
    check_calls(&i, &[&[(120, 180)], &[(120, 180)]], ended(1, 2));
}

/// Case a: two pairs, three trains and six numbers of times are long enough, and one fewer of any is not. A sheet without a schedule is started: 8 comes
/// from the first round.
#[test]
fn refused_starts() {
    let good = sheet_of(CASE_A);
    for (sheet, lengths, number) in [
        (&too_few_places(), [0, 0, 0], Some(TOO_FEW_PLACES)),
        (&too_few_places(), [6, 3, 6], Some(TOO_FEW_PLACES)),
        (&good, [1, 3, 6], Some(AREA_TOO_SHORT)),
        (&good, [0, 3, 6], Some(AREA_TOO_SHORT)),
        (&good, [2, 2, 6], Some(AREA_TOO_SHORT)),
        (&good, [2, 0, 6], Some(AREA_TOO_SHORT)),
        (&good, [2, 3, 5], Some(AREA_TOO_SHORT)),
        (&good, [2, 3, 0], Some(AREA_TOO_SHORT)),
        (&good, [0, 0, 0], Some(AREA_TOO_SHORT)),
        (&late(), [1, 3, 6], Some(AREA_TOO_SHORT)),
        (&late(), [2, 2, 6], Some(AREA_TOO_SHORT)),
        (&late(), [2, 3, 5], Some(AREA_TOO_SHORT)),
        (&late(), [2, 3, 6], None),
        (&good, [2, 3, 6], None),
        (&good, [9, 9, 9], None),
    ] {
        let refusal = Watched::start(sheet, lengths).err();
        assert_eq!(refusal, number.map(Refusal::of_all), "{lengths:?}");
    }
}

#[test]
fn lists_that_stay_and_lists_that_do_not() {
    let pair = |(arrival, lateness)| Pair { arrival, lateness };
    let later = |later: &[(u32, i64)]| {
        let read = [(10, 7), (12, 5), (20, 1)].map(pair);
        is_later(&read, &later.iter().map(|&numbers| pair(numbers)).collect::<Vec<Pair>>())
    };
    assert!(later(&[(10, 7), (12, 5), (20, 1)]) && later(&[(10, 7), (12, 5), (20, 1), (21, 0)]));
    assert!(later(&[(10, 7), (12, 5), (20, 0)]) && later(&[(10, 7), (12, 5), (20, -3), (30, -4)]));
    assert!(!later(&[]) && !later(&[(10, 7), (12, 5)]), "fewer");
    assert!(!later(&[(10, 6), (12, 5), (20, 1)]) && !later(&[(10, 7), (12, 4), (20, 1)]), "one before the last");
    assert!(
        !later(&[(10, 7), (12, 5), (20, 2)]) && !later(&[(10, 7), (12, 5), (21, 0)]),
        "later or with another arrival"
    );
    assert!(is_later(&[], &[]) && is_later(&[], &[pair((1, 1))]));
}

/// How many searches were compared, how many rounds they made, in how many of these the last pair was replaced, and how many searches were refused.
#[derive(Debug, Default)]
struct Met {
    searches: usize,
    rounds: usize,
    replaced: usize,
    refused: usize,
}

impl Met {
    fn print(&self, what: &str) {
        let Met { searches, rounds, replaced, refused } = self;
        println!("watching, {what}: {searches} searches in {rounds} rounds ({replaced} replaced a pair, {refused} searches refused)");
    }

    /// The rounds to the end, whose reply is given, with a look behind each: what was seen before stays, and `lists` has what is to be seen if that is
    /// known.
    fn check_rounds(&mut self, run: &mut Run, lists: Option<&[Vec<Pair>]>) -> (Said, usize) {
        let most = figure(run.sheet);
        let mut read = run.look();
        assert_eq!(read, []);
        for round in 1..=most {
            let said = run.round();
            let seen = run.look();
            assert!(is_later(&read, &seen), "{read:?} {seen:?} {:?}", run.sheet);
            assert!(lists.is_none_or(|lists| lists[round - 1] == seen), "{seen:?} {:?}", run.sheet);
            self.replaced += usize::from(seen.len() == read.len() && seen != read);
            if said != Said::GoesOn {
                return (said, round);
            }
            read = seen;
        }
        panic!("no end within {most} rounds: {:?}", run.sheet);
    }

    /// The whole search by single rounds is the unbroken one, and stays as it is at its end.
    fn check_search(&mut self, sheet: &Sheet, lists: Option<&[Vec<Pair>]>, rng: &mut Rng) {
        let mut run = Run::start(sheet, [rng.index(3), rng.index(3), rng.index(3)]);
        let lent = run.areas.clone();
        let (end, rounds) = self.check_rounds(&mut run, lists);
        assert!(lists.is_none_or(|lists| lists.len() == rounds), "{sheet:?}");
        match search(sheet) {
            Ok(recorded) => {
                assert_eq!(end, ended(recorded.entries.len(), recorded.rounds), "{sheet:?}");
                assert!(rounds == recorded.rounds && run.holds(&recorded), "{sheet:?}");
            }
            Err(refusal) => {
                assert_eq!((end, rounds), (Said::Refused(refusal), 1), "{sheet:?}");
                assert_eq!(run.areas, lent, "{sheet:?}");
                self.refused += 1;
            }
        }
        let at_end = run.clone();
        (0..=rng.index(3)).for_each(|_| assert_eq!(run.round(), end, "{sheet:?}"));
        assert_eq!(run, at_end, "{sheet:?}");
        self.searches += 1;
        self.rounds += rounds;
    }
}

#[test]
fn drawn_sheets() {
    let mut rng = Rng::new(13);
    for form in FORMS {
        let mut met = Met::default();
        for (sheets, most_orders) in [(4_000, 9), (1_000, 30)] {
            for _ in 0..sheets {
                let sheet = small(&mut rng, form, most_orders);
                met.check_search(&sheet, Some(&trace(&sheet).lists), &mut rng);
            }
        }
        for _ in 0..60 {
            let (n, q) = drawn_size(&mut rng);
            let sheet = big(&mut rng, form, n, q);
            met.check_search(&sheet, Some(&trace(&sheet).lists), &mut rng);
        }
        met.print(&format!("{form:?}"));
        assert!(met.replaced > 1_000 && met.refused > 100, "{met:?}");
    }
}

#[test]
fn ladders() {
    let mut rng = Rng::new(14);
    let mut met = Met::default();
    for (release, stir, opens) in [(0, 0, 0), (300, 3, 300), (3_000, 50, 0)] {
        let ladder = Ladder { release, stir, shuffled: stir > 0 };
        for sheet in [ladder_windows(&mut rng, 60, 12, ladder, opens), ladder_timetable(&mut rng, 60, 12, ladder)] {
            met.check_search(&sheet, Some(&trace(&sheet).lists), &mut rng);
        }
    }
    met.print("ladders");
    assert!(met.rounds > 100 * met.searches, "{met:?}");
}

#[test]
fn every_stored_sheet() {
    let mut rng = Rng::new(15);
    let mut met = Met::default();
    for stored in stored_sheets() {
        if let Ok(reading) = read(&stored.text, Form::of(&stored.text)) {
            met.check_search(&reading.sheet, None, &mut rng);
        }
    }
    met.print("stored sheets");
    assert!(met.searches > 80 && met.refused > 5, "{met:?}");
}

/// What examples/watch_hard.c shows of the search on a sheet.
fn shown(sheet: &Sheet) -> String {
    let (mut run, mut lines) = (Run::start(sheet, [0; 3]), String::new());
    let (mut read, mut replaced) = (Vec::new(), 0);
    let of_pair = |pair: &Pair| format!("{},{}\n", pair.arrival, pair.lateness);
    let of_replaced = |replaced: usize, last: Option<&Pair>| match (replaced, last) {
        (1.., Some(last)) => format!("  replaced {replaced} times, at last by {}", of_pair(last)),
        _ => String::new(),
    };
    for round in 1.. {
        let said = run.round();
        let seen = run.look();
        if seen.len() > read.len() {
            lines += &of_replaced(replaced, read.last());
            lines += &format!("round {round}: pair {} is {}", seen.len(), of_pair(&seen[seen.len() - 1]));
            replaced = 0;
        } else {
            replaced += usize::from(seen != read);
        }
        read = seen;
        if let Said::Ended(Counts { pairs, rounds }) = said {
            lines += &of_replaced(replaced, read.last());
            return lines + &format!("ended with {pairs} pairs after {rounds} rounds\n");
        }
    }
    unreachable!("the search ends");
}

#[test]
fn the_example_in_c() {
    const EXPECTED: &str = include_str!("../../../examples/watch_hard.expected");
    let hard = stored_sheets().into_iter().find(|stored| stored.name == "509-ladder-moving-shuffled-window");
    let text = hard.expect("the sheet of the example").text;
    assert_eq!(shown(&read(&text, Form::Windows).expect("a good text").sheet), EXPECTED);
}
