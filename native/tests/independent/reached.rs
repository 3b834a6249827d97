//! The list's length known beforehand: no sheet has more rounds or pairs, and sheets that come to it in rounds, and in pairs, lose nothing.

use crate::bound::checked_counts;
use native::draw::{big, drawn_size, small};
use native::full_list::full_list;
use native::ladder::{ladder_timetable, ladder_windows, short_ladder_timetable, short_ladder_windows, Ladder};
use native::limits::MOST_CAPACITY;
use native::listing::seen;
use native::planner::{figure, list, Counts};
use native::reader::read;
use native::rng::Rng;
use native::sheet::{Form, Sheet, FORMS};
use native::stored::stored_sheets;

/// How many sheets were met; and of those with a figure above 1, full and with places to spare, how many come to it in rounds and how many in pairs.
#[derive(Debug, Default)]
struct Met {
    sheets: usize,
    in_rounds: [usize; 2],
    in_pairs: [usize; 2],
}

impl Met {
    /// Gives whether the list is filled.
    fn meet(&mut self, sheet: &Sheet) -> bool {
        let most = figure(sheet);
        let Counts { pairs, rounds } = checked_counts(sheet).unwrap_or(Counts { pairs: 0, rounds: 0 });
        assert!(pairs <= rounds && rounds <= most, "{sheet:?}");
        let to_spare = usize::from(sheet.spare_places() > Some(0));
        self.sheets += 1;
        self.in_rounds[to_spare] += usize::from(rounds == most && most > 1);
        self.in_pairs[to_spare] += usize::from(pairs == most && most > 1);
        pairs == most
    }

    fn print(&self, what: &str) {
        let Met { sheets, in_rounds, in_pairs } = self;
        print!("figure, {what}: {sheets} sheets; full and with places to spare, ");
        println!("{in_rounds:?} come to it in rounds, {in_pairs:?} in pairs");
    }
}

/// A timetable sheet has one pair, so it fills its list with one train only.
#[test]
fn drawn_sheets() {
    let mut rng = Rng::new(23);
    for form in FORMS {
        let mut met = Met::default();
        (0..20_000).for_each(|_| _ = met.meet(&small(&mut rng, form, 9)));
        for _ in 0..300 {
            let (n, q) = drawn_size(&mut rng);
            met.meet(&big(&mut rng, form, n, q));
        }
        met.print(&format!("{form:?}"));
        let filled = |count: &usize| if form == Form::Windows { *count > 40 } else { *count == 0 };
        assert!(met.in_rounds.iter().all(|&count| count > 300) && met.in_pairs.iter().all(filled), "{met:?}");
    }
}

/// Ladders without changes of the due times, on which departures stay: each round has one order move by one train.
#[test]
fn ladders() {
    let mut rng = Rng::new(24);
    let ladder = Ladder { release: 300, stir: 0, shuffled: true };
    let mut met = Met::default();
    for (n, q) in [(12, 4), (40, 8), (60, 12), (120, 24)] {
        let trains = || vec![MOST_CAPACITY.min(n); q];
        let sheets = [
            ladder_windows(&mut rng, n, q, ladder, ladder.release),
            ladder_timetable(&mut rng, n, q, ladder),
            short_ladder_windows(&mut rng, n, trains(), ladder, ladder.release),
            short_ladder_timetable(&mut rng, n, trains(), ladder),
        ];
        sheets.iter().for_each(|sheet| _ = met.meet(sheet));
    }
    met.print("ladders");
    assert_eq!((met.sheets, met.in_rounds), (16, [8, 8]));
}

/// Sheets whose list is filled, of every size with few orders; where all loadings can be listed, the list is the best one.
#[test]
fn filled_lists() {
    const MOST_LOADINGS: usize = 100_000;
    let mut rng = Rng::new(25);
    let (mut met, mut by_listing) = (Met::default(), 0);
    for (places, q) in (1..=6).flat_map(|places| (1..=6).map(move |q| (places, q))) {
        for n in 1..=places * q {
            let sheet = full_list(&mut rng, n, places, q);
            assert!(met.meet(&sheet), "{sheet:?}");
            if (q as usize).saturating_pow(n) <= MOST_LOADINGS {
                assert_eq!(list(&sheet).map(|listing| listing.pairs), Ok(seen(&sheet).front()), "{sheet:?}");
                by_listing += 1;
            }
        }
    }
    met.print("filled lists");
    assert!(met.in_pairs == [30, 390] && by_listing > 100, "{by_listing} {met:?}");
}

/// The figure of a stored sheet, with its pairs and rounds.
fn of_stored(name: &str) -> (usize, Counts) {
    let stored = stored_sheets().into_iter().find(|stored| stored.name == name).expect("a stored sheet");
    let sheet = read(&stored.text, Form::of(&stored.text)).expect("a good text").sheet;
    (figure(&sheet), checked_counts(&sheet).expect("a schedule"))
}

#[test]
fn stored_sheets_that_come_to_it() {
    for (name, most, pairs) in [
        ("520-short-most-rounds-trains-of-64-timetable", 5_985, 1),
        ("521-short-most-rounds-trains-of-one-window", 5_985, 1),
        ("883-list-full-one-short-train-timetable", 1, 1),
        ("886-list-full-196-orders-7-trains-of-28-window", 589, 589),
        ("889-list-full-64-orders-32-trains-of-64-window", 1_985, 1_985),
        ("890-list-full-156-orders-32-trains-of-64-window", 4_717, 4_717),
        ("901-given-rounds-full-timetable", 5_558, 1),
        ("902-given-rounds-full-window", 5_558, 1),
        ("905-given-list-full-two-trains", 65, 65),
    ] {
        assert_eq!(of_stored(name), (most, Counts { pairs, rounds: most }), "{name}");
    }
}

/// Sheet 906 was given as one with a long list; its figure is 3,005.
#[test]
fn every_stored_sheet() {
    let (mut met, mut filled) = (Met::default(), [0, 0]);
    for stored in stored_sheets() {
        let form = Form::of(&stored.text);
        if let Ok(reading) = read(&stored.text, form) {
            let is_full = met.meet(&reading.sheet);
            assert!(is_full || !stored.name.contains("list-full") || stored.name.starts_with("906"), "{}", stored.name);
            filled[usize::from(form == Form::Timetable)] += usize::from(is_full);
        }
    }
    met.print("stored sheets");
    let reached = met.in_rounds.iter().chain(&met.in_pairs).chain(&filled);
    assert!(met.sheets > 120 && reached.min() >= Some(&4), "{met:?} {filled:?}");
}
