//! Trains that have gone: by hand, each refusal in its order, and damaged and wild gone parts by a second opinion.

use crate::areas::{late, too_few_places, GUARD_PAIR, GUARD_TIME, GUARD_TRAIN};
use crate::judge::good_gone;
use native::cases::{sheet_of, with, CASE_A, DAY};
use native::departed::{damaged_gone, drawn_gone, gone, wild_gone};
use native::draw::{big, drawn_size, small};
use native::gone::Gone;
use native::plan::{times_in, Entry, Pair, Plan};
use native::refusal::*;
use native::replan::{rechoose, rechoose_in, relist, relist_in};
use native::rng::Rng;
use native::sheet::{Form, Sheet};

/// The pairs and the count of rounds, or the refusal's number.
fn listed(sheet: &Sheet, gone: &Gone) -> Result<(Vec<(u32, i64)>, usize), usize> {
    match relist(sheet, gone) {
        Ok(listing) => Ok((listing.pairs.iter().map(|pair| (pair.arrival, pair.lateness)).collect(), listing.rounds)),
        Err(Refusal { number, returned: 0 }) => Err(number),
        Err(refusal) => panic!("{refusal:?}"),
    }
}

/// Train 1 left at minute 0 with A; at minute 70 B, C and D wait.
#[test]
fn a_day_planned_anew() {
    let sheet = sheet_of(DAY);
    let with_a = gone(70, &[0], &[(1, 1)]);
    assert_eq!(listed(&sheet, &with_a), Ok((vec![(170, 200), (175, 165)], 2)));
    let chosen = |wish: u32| rechoose(&sheet, &with_a, wish);
    let entry = |pair: (u32, i64), trains: [u8; 4], times: [[u32; 3]; 3]| {
        let plan = Plan { train_of_order: trains.to_vec(), times: times_in(times.as_flattened()) };
        Ok(Entry { pair: Pair { arrival: pair.0, lateness: pair.1 }, plan })
    };
    let first = entry((170, 200), [1, 2, 2, 3], [[0, 30, 1], [90, 110, 1], [150, 170, 2]]);
    let second = entry((175, 165), [1, 2, 3, 2], [[0, 30, 1], [95, 115, 1], [155, 175, 2]]);
    assert_eq!(chosen(169), Err(Refusal::of_all(WISH_TOO_EARLY)));
    assert_eq!((chosen(170), chosen(174)), (first.clone(), first));
    assert_eq!((chosen(175), chosen(u32::MAX)), (second.clone(), second));
    assert_eq!(listed(&sheet, &gone(90, &[0], &[(1, 1)])), Ok((vec![(170, 200), (175, 165)], 2)));
    assert_eq!(listed(&sheet, &gone(92, &[0], &[(1, 1)])), Ok((vec![(172, 210), (175, 165)], 2)), "train 2 at 92");
    assert_eq!(listed(&sheet, &gone(100, &[0], &[(1, 1)])), Ok((vec![(180, 180)], 2)), "the last minute of window 1");
    assert_eq!(listed(&sheet, &gone(101, &[0], &[(1, 1)])), Err(NO_SCHEDULE), "no window for train 3");
    assert_eq!(listed(&sheet, &gone(u32::MAX, &[0], &[(1, 1)])), Err(NO_SCHEDULE));
}

/// The orders left outnumber the places: train 1 left empty, or without a train of more places behind it.
#[test]
fn too_few_places_left() {
    assert_eq!(listed(&sheet_of(DAY), &gone(70, &[0], &[])), Err(NO_SCHEDULE), "four orders for three places");
    assert_eq!(listed(&sheet_of(CASE_A), &gone(40, &[0], &[])), Err(NO_SCHEDULE), "three orders for two places");
    let larger = sheet_of(&with(CASE_A, "T,2,20", "T,3,20"));
    assert_eq!(listed(&larger, &gone(40, &[0], &[])), Ok((vec![(110, 150)], 1)), "train 2 takes all");
}

/// The worst lateness counts the order that has gone; a round that comes to it is the last, and no order that has not gone is later.
#[test]
fn the_worst_of_the_orders_gone() {
    let text = "G,1\nW,0,20\nT,1,1\nT,1,1\nT,1,1\nO,X,0,0,10\nO,Y,0,0,1\nO,Z,0,0,2\n";
    let first = gone(4, &[4], &[(1, 1)]);
    assert_eq!(listed(&sheet_of(text), &first), Ok((vec![(7, 50)], 1)));
    let lighter = |weight: &str| sheet_of(&with(text, "X,0,0,10", &format!("X,0,0,{weight}")));
    assert_eq!(listed(&lighter("1"), &first), Ok((vec![(7, 12)], 2)), "5 is less than Z's lateness on train 2");
    assert_eq!(listed(&lighter("2"), &first), Ok((vec![(7, 12)], 2)));
    assert_eq!(listed(&lighter("3"), &first), Ok((vec![(7, 15)], 1)), "15 is more than Z's lateness on train 3");
    let both = gone(5, &[4, 5], &[(1, 1), (3, 2)]);
    assert_eq!(listed(&lighter("1"), &both), Ok((vec![(7, 12)], 1)), "Y's lateness is 7, Z's is 12 and fixed");
    let all = gone(6, &[4, 5], &[(1, 1), (3, 2)]);
    let alone = sheet_of(&with(text, "O,Y,0,0,1\n", ""));
    assert_eq!(relist(&alone, &gone(6, &[4, 5], &[(2, 2), (1, 1)])).map(|list| list.rounds), Ok(1), "no order left");
    assert_eq!(listed(&sheet_of(text), &all), Ok((vec![(7, 50)], 1)));
}

/// Each cause of 21 by itself, on case a with a third train; a departure at the minute is good.
#[test]
fn wrong_gone_parts() {
    let sheet = sheet_of(DAY);
    let number = |gone: Gone| listed(&sheet, &gone).err().unwrap_or(0);
    assert_eq!(number(gone(0, &[0], &[(1, 1)])), 0, "at the minute");
    for (wrong, why) in [
        (gone(70, &[0], &[(1, 1), (1, 1)]), "A twice"),
        (gone(70, &[0, 60], &[(1, 1), (1, 2)]), "A on two trains"),
        (gone(70, &[0], &[(0, 1)]), "no order 0"),
        (gone(70, &[0], &[(5, 1)]), "no order 5"),
        (gone(70, &[0], &[(257, 1)]), "no order 257"),
        (gone(70, &[0], &[(u32::MAX, 1)]), "no such order"),
        (gone(70, &[0], &[(1, 0)]), "no train 0"),
        (gone(70, &[0], &[(1, 2)]), "train 2 has not gone"),
        (gone(70, &[0], &[(1, 257)]), "no train 257"),
        (gone(70, &[], &[(1, 1)]), "no train has gone"),
        (gone(70, &[40], &[(1, 1), (2, 1)]), "train 1 has one place"),
        (gone(70, &[39], &[(2, 1)]), "B is released at 40"),
        (gone(130, &[101], &[(1, 1)]), "between the windows"),
        (gone(300, &[201], &[(1, 1)]), "behind the windows"),
        (gone(70, &[0, 59], &[(1, 1)]), "59 minutes behind train 1"),
        (gone(70, &[60, 0], &[(1, 1)]), "train 2 ahead of train 1"),
        (gone(u32::MAX, &[u32::MAX - 59, 0], &[]), "a gap behind it is 0 in 32 bits"),
        (gone(69, &[70], &[(1, 1)]), "a minute later"),
        (gone(200, &[0, 60, 150], &[(1, 1)]), "no train remains"),
        (gone(200, &[0, 60, 150, 200], &[(1, 1)]), "four trains of three"),
    ] {
        assert_eq!(number(wrong), WRONG_GONE_PART, "{why}");
    }
}

/// Lists and chooses with areas of these lengths, filled with guards, which stay; gives the refusal of both.
pub fn refused(sheet: &Sheet, gone: &Gone, wish: u32, [pairs, trains, times]: [usize; 3]) -> [usize; 2] {
    let mut list = vec![GUARD_PAIR; pairs];
    let (mut train_of_order, mut times) = (vec![GUARD_TRAIN; trains], vec![GUARD_TIME; times]);
    let listed = relist_in(sheet, gone, &mut list).expect_err("a refusal");
    let chosen = rechoose_in(sheet, gone, wish, &mut train_of_order, &mut times).expect_err("a refusal");
    assert!(list.iter().all(|pair| *pair == GUARD_PAIR) && train_of_order.iter().all(|train| *train == GUARD_TRAIN));
    assert!(times.iter().all(|time| *time == GUARD_TIME) && (listed.returned, chosen.returned) == (0, 0));
    [listed.number, chosen.number]
}

/// 7 before 10, 10 before 21, 21 before 8, 8 before 11. Two pairs are the figure of case a, three trains and six numbers of times its plan.
#[test]
fn refusals_in_turn() {
    let (good, bad) = (gone(40, &[0], &[(1, 1)]), gone(40, &[0], &[(1, 2)]));
    for (sheet, gone, lengths, numbers) in [
        (too_few_places(), &bad, [0, 0, 0], [TOO_FEW_PLACES; 2]),
        (too_few_places(), &bad, [9, 9, 9], [TOO_FEW_PLACES; 2]),
        (late(), &bad, [1, 2, 6], [AREA_TOO_SHORT; 2]),
        (late(), &bad, [1, 3, 5], [AREA_TOO_SHORT; 2]),
        (late(), &bad, [1, 3, 6], [AREA_TOO_SHORT, WRONG_GONE_PART]),
        (late(), &bad, [2, 2, 5], [WRONG_GONE_PART, AREA_TOO_SHORT]),
        (late(), &bad, [2, 3, 6], [WRONG_GONE_PART; 2]),
        (late(), &good, [2, 3, 6], [WRONG_GONE_PART; 2]),
        (late(), &gone(40, &[40], &[(2, 1)]), [2, 3, 6], [NO_SCHEDULE; 2]),
    ] {
        assert_eq!(refused(&sheet, gone, 0, lengths), numbers, "{lengths:?}");
    }
    let mut times = [0; 6];
    assert_eq!(
        rechoose_in(&sheet_of(CASE_A), &good, 109, &mut [0; 3], &mut times),
        Err(Refusal::of_all(WISH_TOO_EARLY))
    );
    assert_eq!(times, [0; 6]);
}

/// Only the first elements are written.
#[test]
fn longer_areas() {
    let (sheet, with_a) = (sheet_of(DAY), gone(70, &[0], &[(1, 1)]));
    let mut pairs = vec![GUARD_PAIR; 9];
    assert_eq!(relist_in(&sheet, &with_a, &mut pairs).map(|counts| (counts.pairs, counts.rounds)), Ok((2, 2)));
    assert_eq!(pairs[..2], [Pair { arrival: 170, lateness: 200 }, Pair { arrival: 175, lateness: 165 }]);
    assert_eq!(pairs[2..], [GUARD_PAIR; 7]);
    let (mut trains, mut times) = ([GUARD_TRAIN; 6], [GUARD_TIME; 11]);
    let chosen = rechoose_in(&sheet, &with_a, 175, &mut trains, &mut times);
    assert_eq!(chosen, Ok(Pair { arrival: 175, lateness: 165 }));
    assert_eq!(trains, [1, 2, 3, 2, GUARD_TRAIN, GUARD_TRAIN]);
    assert_eq!(times, [0, 30, 1, 95, 115, 1, 155, 175, 2, GUARD_TIME, GUARD_TIME]);
}

/// Refused with 21 just where the second opinion says so.
fn check_gone(sheet: &Sheet, gone: &Gone, met: &mut [usize; NUMBER_COUNT]) -> bool {
    let good = good_gone(sheet, gone);
    let number = relist(sheet, gone).err().map_or(0, |refusal| refusal.number);
    assert_eq!(number == WRONG_GONE_PART, !good, "{gone:?} {sheet:?}");
    assert_eq!(rechoose(sheet, gone, u32::MAX).err().map_or(0, |refusal| refusal.number), number, "{gone:?} {sheet:?}");
    met[number] += 1;
    good
}

#[test]
fn damaged_and_wild_gone_parts() {
    let mut rng = Rng::new(31);
    let mut met = [0; NUMBER_COUNT];
    for turn in 0..4_000 {
        let sheet = if turn % 20 == 0 {
            let (n, q) = drawn_size(&mut rng);
            big(&mut rng, Form::Windows, n, q)
        } else {
            small(&mut rng, Form::Windows, 12)
        };
        let gone = drawn_gone(&mut rng, &sheet);
        if check_gone(&sheet, &gone, &mut met) {
            for damaged in damaged_gone(&mut rng, &sheet, &gone) {
                let good = check_gone(&sheet, &damaged.gone, &mut met);
                assert!(!(good && damaged.refused), "{:?} {sheet:?}", damaged.gone);
            }
        }
        check_gone(&sheet, &wild_gone(&mut rng, &sheet), &mut met);
    }
    let (all, wrong) = (met.iter().sum::<usize>(), met[WRONG_GONE_PART]);
    println!(
        "replanning, gone parts: {all} judged, {wrong} of them wrong, {} with no schedule behind",
        met[NO_SCHEDULE]
    );
    assert!([0, NO_SCHEDULE, WRONG_GONE_PART].iter().all(|&number| met[number] > 5_000), "{met:?}");
}
