//! The list's length known beforehand: the figure by hand, and areas of just that length.

use crate::areas::{list_guarded, GUARD_PAIR};
use crate::checking::check_guarded;
use crate::watching::Run;
use native::cases::{cases, sheet_of};
use native::limits::*;
use native::plan::Pair;
use native::planner::{bound, Counts};
use native::refusal::*;
use native::search::{search, Recorded};
use native::sheet::{Form, Orders, Paths, Sheet, Timetable, Windows, FORMS};
use native::watching::{Said, Watched};

/// Those of cases d and f too, which have no schedule.
#[test]
fn cases_a_to_i() {
    let bounds = cases().map(|text| bound(&sheet_of(&text)));
    assert_eq!(bounds, [2, 2, 2, 2, 1, 1, 1, 2, 2].map(Ok));
}

/// So many orders, and trains of these capacities.
fn of_size(form: Form, n: usize, capacity: &[u32]) -> Sheet {
    let q = capacity.len() as u32;
    let paths = match form {
        Form::Windows => {
            Paths::Windows(Windows { gap: 1, from: vec![0], to: vec![LAST_INSTANT], running: vec![1; capacity.len()] })
        }
        Form::Timetable => Paths::Timetable(Timetable { departure: (0..q).collect(), arrival: (1..=q).collect() }),
    };
    let orders = Orders { release: vec![0; n], due: (0..n as u32).collect(), weight: vec![1; n] };
    Sheet { capacity: capacity.to_vec(), paths, orders }
}

/// With what other sums would come to: to the last train; with the orders, or with the places, in place of the smaller; without the 1. Only an area of the
/// figure is just long enough, and each other sum is told apart from it.
#[test]
fn by_hand() {
    let front_heavy = [vec![64, 64, 43], vec![1; 29]].concat();
    let mut told_apart = [0; 4];
    for (n, capacity, most, others) in [
        (3, &[1, 2][..], 1 + 1, [1 + 1 + 3, 1 + 3, 1 + 1, 1]),
        (3, &[2, 1], 1 + 2, [1 + 2 + 3, 1 + 3, 1 + 2, 2]),
        (3, &[2, 2, 2], 1 + 2 + 3, [1 + 2 + 3 + 3, 1 + 3 + 3, 1 + 2 + 4, 2 + 3]),
        (3, &[64, 64], 1 + 3, [1 + 3 + 3, 1 + 3, 1 + 64, 3]),
        (6, &[1, 2, 3], 1 + 1 + 3, [1 + 1 + 3 + 6, 1 + 6 + 6, 1 + 1 + 3, 1 + 3]),
        (5, &[1, 2, 3, 4], 1 + 1 + 3 + 5, [1 + 1 + 3 + 5 + 5, 1 + 5 + 5 + 5, 1 + 1 + 3 + 6, 1 + 3 + 5]),
        (1, &[64; 32], 32, [33, 32, 1 + 64 * 496, 31]),
        (32, &[1; 32], 1 + 496, [1 + 528, 1 + 31 * 32, 1 + 496, 496]),
        (200, &front_heavy, 5_558, [5_758, 1 + 31 * 200, 5_558, 5_557]),
        (200, &[64; 32], 5_985, [6_185, 1 + 31 * 200, 1 + 64 * 496, 5_984]),
    ] {
        for sheet in FORMS.map(|form| of_size(form, n, capacity)) {
            assert_eq!(bound(&sheet), Ok(most), "{sheet:?}");
            let too_short = |length| list_guarded(&sheet, length).0 == Err(Refusal::of_all(AREA_TOO_SHORT));
            let just_enough = |length| too_short(length - 1) && !too_short(length);
            assert!(just_enough(most), "{sheet:?}");
            for (told, other) in told_apart.iter_mut().zip(others) {
                assert_eq!(just_enough(other), other == most, "{other} {sheet:?}");
                *told += usize::from(other != most);
            }
        }
    }
    assert!(told_apart.iter().all(|&count| count >= 10), "{told_apart:?}");
}

/// Without a train but the last there is one pair.
#[test]
fn one_train() {
    for n in 1..=MOST_CAPACITY {
        for sheet in FORMS.map(|form| of_size(form, n as usize, &[MOST_CAPACITY])) {
            assert_eq!(bound(&sheet), Ok(1), "{sheet:?}");
            assert_eq!(checked_counts(&sheet), Some(Counts { pairs: 1, rounds: 1 }), "{sheet:?}");
        }
    }
}

/// A second opinion: 1, and one for each train but the last and each order that would find a place up to it if the orders took them in turn.
fn counted(sheet: &Sheet) -> usize {
    let (n, q) = sheet.size();
    let finds_place =
        |i: usize, j: usize| sheet.capacity.iter().take(i).map(|&places| places as usize).sum::<usize>() > j;
    1 + (1..q).map(|i| (0..n).filter(|&j| finds_place(i, j)).count()).sum::<usize>()
}

/// The sheet is refused in an area of one pair less than the figure, and with one just as long each call answers as with a longer one, and within so many
/// rounds. Gives what was counted, if there is a schedule.
pub fn checked_counts(sheet: &Sheet) -> Option<Counts> {
    let most = bound(sheet).expect("an admitted sheet");
    assert_eq!(most, counted(sheet), "{sheet:?}");
    let too_short = Err(Refusal::of_all(AREA_TOO_SHORT));
    assert_eq!(list_guarded(sheet, most - 1), (too_short, vec![GUARD_PAIR; most - 1]), "{sheet:?}");
    let (counts, pairs) = list_guarded(sheet, most);
    let (longer_counts, longer) = list_guarded(sheet, most + 5);
    assert_eq!((counts, longer), (longer_counts, [&pairs[..], &[GUARD_PAIR; 5]].concat()), "{sheet:?}");
    check_watching(sheet, most);
    let recorded = search(sheet).ok()?;
    check_checking(sheet, &recorded, &pairs);
    counts.ok()
}

/// A search by single rounds ends within as many as the figure says, in areas of just that length.
fn check_watching(sheet: &Sheet, most: usize) {
    let (n, q) = sheet.size();
    let too_short = Some(Refusal::of_all(AREA_TOO_SHORT));
    assert_eq!(Watched::start(sheet, [most - 1, n, 3 * q]).err(), too_short, "{sheet:?}");
    let mut run = Run::start(sheet, [0; 3]);
    let end = (0..most).map(|_| run.round()).find(|said| *said != Said::GoesOn);
    match search(sheet) {
        Ok(recorded) => {
            let counts = Counts { pairs: recorded.entries.len(), rounds: recorded.rounds };
            assert_eq!(end, Some(Said::Ended(counts)), "{sheet:?}");
            assert!(run.holds(&recorded), "{sheet:?}");
        }
        Err(refusal) => assert_eq!(end, Some(Said::Refused(refusal)), "{sheet:?}"),
    }
}

/// Our own last plan is checked in an area of just the figure, and the list is there.
fn check_checking(sheet: &Sheet, recorded: &Recorded, pairs: &[Pair]) {
    let last = recorded.entries.last().expect("a recorded pair");
    let plan = (&last.plan).into();
    let (checked, listed) = check_guarded(sheet, &plan, pairs.len()).expect("our own plan");
    assert!(checked.listed && checked.pair == last.pair && listed == pairs, "{sheet:?}");
    assert_eq!(check_guarded(sheet, &plan, pairs.len() - 1), Err(AREA_TOO_SHORT), "{sheet:?}");
}
