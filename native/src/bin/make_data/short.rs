//! Sheets with places to spare: empty trains, trains that orders pass by, few and many places, and drawn ones.

use crate::drawn::store_random;
use crate::parts::order_lines;
use crate::searched::{find_showing, SMALL_ORDERS};
use crate::store::Store;
use native::draw::{big_short, small_short};
use native::rng::Rng;
use native::sheet::{Form, Sheet};
use native::trace::{Loading, Outcome, Trace};

pub fn store_all(store: &mut Store) {
    store.group(800);
    one_empty_train(store);
    what_an_empty_train_does(store);
    store.group(820);
    few_and_many_places(store);
    trains_of_64(store);
    store.group(840);
    searched(store);
    store.group(860);
    store_random(store, &mut Rng::new(48), "random-short", big_short);
}

/// The first, a middle one and the last.
fn one_empty_train(store: &mut Store) {
    // Train 1 does not wait. With A and B on it, train 2 would find no window.
    store.printed(
        "empty-first-train-window",
        b"G,10\nW,0,20\nW,50,60\nT,2,5\nT,2,5\nO,A,55,70,1\nO,B,50,70,1\n",
        "P,60,-10\nD,1,0,5,1\nD,2,55,60,2\nL,A,2\nL,B,2\nR,2\n",
    );
    store.printed(
        "empty-first-train-timetable",
        b"X,2,10,20\nX,2,30,40\nO,A,25,50,1\nO,B,11,45,1\n",
        "P,40,-5\nD,1,10,20,0\nD,2,30,40,0\nL,A,2\nL,B,2\nR,2\n",
    );
    // A may not ride behind train 1, and C, which may ride train 2, rides train 3.
    store.printed(
        "empty-middle-train-window",
        b"G,5\nW,0,100\nT,1,10\nT,1,10\nT,1,10\nO,A,0,10,5\nO,C,50,59,1\n",
        "P,60,1\nD,1,0,10,1\nD,2,5,15,1\nD,3,50,60,1\nL,A,1\nL,C,3\nR,3\n",
    );
    store.printed(
        "empty-middle-train-timetable",
        b"X,1,0,10\nX,1,5,15\nX,1,50,60\nO,A,0,10,5\nO,C,50,59,1\n",
        "P,60,1\nD,1,0,10,0\nD,2,5,15,0\nD,3,50,60,0\nL,A,1\nL,C,3\nR,3\n",
    );
    // The README's example: of the first pair's plan train 1 is empty, of the last one's train 3, which decides the last arrival.
    store.printed(
        "empty-last-train-window",
        include_bytes!("../../../../examples/empty.sheet"),
        "P,170,90\nP,190,30\nD,1,40,70,1\nD,2,100,130,1\nD,3,160,190,2\nL,A,1\nL,B,1\nL,C,2\nR,5\n",
    );
    store.printed(
        "empty-last-train-timetable",
        b"X,2,0,10\nX,2,5,30\nO,A,0,10,1\nO,B,0,12,1\n",
        "P,30,0\nD,1,0,10,0\nD,2,5,30,0\nL,A,1\nL,B,1\nR,3\n",
    );
}

/// It waits for its gap and a window, and those behind it keep their gap and arrive behind it.
fn what_an_empty_train_does(store: &mut Store) {
    store.printed(
        "empty-train-waits-for-the-next-window",
        b"G,15\nW,0,10\nW,50,60\nT,2,5\nT,2,5\nO,A,0,5,1\nO,B,3,6,1\n",
        "P,55,3\nD,1,3,8,1\nD,2,50,55,2\nL,A,1\nL,B,1\nR,3\n",
    );
    store.refused("empty-train-without-a-window", "G,11\nW,0,10\nT,1,1\nT,1,1\nO,A,0,0,1\n", "E,8,0");
    // C, released at 30, leaves at 40: train 2 leaves at 20.
    store.printed(
        "empty-train-keeps-its-gap",
        b"G,20\nW,0,200\nT,1,10\nT,1,10\nT,1,10\nO,A,0,10,9\nO,C,30,100,1\n",
        "P,50,0\nD,1,0,10,1\nD,2,20,30,1\nD,3,40,50,1\nL,A,1\nL,C,3\nR,2\n",
    );
    // Train 2 would be there at 30 alone.
    store.printed(
        "slow-empty-train-ahead",
        b"G,5\nW,0,100\nT,2,80\nT,2,10\nO,A,20,50,1\nO,B,20,60,1\n",
        "P,85,35\nD,1,0,80,1\nD,2,20,85,1\nL,A,2\nL,B,2\nR,2\n",
    );
    store.printed(
        "four-empty-trains-ahead",
        b"G,3\nW,7,9\nW,20,30\nT,1,2\nT,1,2\nT,1,2\nT,1,2\nT,1,2\nO,A,29,0,1\n",
        "P,31,31\nD,1,7,9,1\nD,2,20,22,2\nD,3,23,25,2\nD,4,26,28,2\nD,5,29,31,2\nL,A,5\nR,2\n",
    );
}

/// The text of trains with these capacities, and of these orders.
type Text = fn(&[u32], &str) -> String;

const TEXTS: [(&str, Text); 2] = [("window", window_text), ("timetable", timetable_text)];

fn window_text(capacity: &[u32], orders: &str) -> String {
    let trains: String = capacity.iter().map(|places| format!("T,{places},7\n")).collect();
    format!("G,10\nW,0,999\n{trains}{orders}")
}

fn timetable_text(capacity: &[u32], orders: &str) -> String {
    let train = |(i, places): (u32, &u32)| format!("X,{places},{},{}\n", 10 * i, 10 * i + 7);
    let trains: String = (0..).zip(capacity).map(train).collect();
    trains + orders
}

/// A place fewer than orders, one more, and many more.
fn few_and_many_places(store: &mut Store) {
    let (many, few) = (order_lines(200), order_lines(9));
    for (form, text) in TEXTS {
        store.refused(&format!("199-places-for-200-orders-{form}"), text(&[64, 64, 64, 7], &many), "E,7,0");
        store.planned(&format!("201-places-for-200-orders-{form}"), &text(&[64, 64, 64, 9], &many));
        store.planned(&format!("256-places-for-9-orders-{form}"), &text(&[64; 4], &few));
    }
}

/// The most places; of one order, which every train could carry, each round is made that may be.
fn trains_of_64(store: &mut Store) {
    for (form, text) in TEXTS {
        let window = u32::from(form == "window");
        let times = |i: u32| format!("D,{},{},{},{window}\n", i + 1, 10 * i, 10 * i + 7);
        let plan = format!("P,317,7\n{}L,A,1\nR,32\n", (0..32).map(times).collect::<String>());
        let one = text(&[64; 32], "O,A,0,0,1\n");
        store.printed(&format!("32-trains-of-64-for-one-order-{form}"), one.as_bytes(), &plan);
        store.planned(&format!("32-trains-of-64-for-200-orders-{form}"), &text(&[64; 32], &order_lines(200)));
    }
}

/// What the rounds of a sheet must show.
type Wanted = fn(&Sheet, &Trace) -> bool;

const BOTH_FORMS: [(&str, Wanted); 3] = [
    ("empty-train-passed-by", |sheet, trace| passed_by(sheet, trace, |load, _| load == 0)),
    ("short-train-passed-by", |sheet, trace| passed_by(sheet, trace, |load, places| 0 < load && load < places)),
    ("each-of-four-trains-empty-in-turn", |sheet, trace| {
        let empty = |i: usize| recorded(trace).any(|loading| loading.load(i) == 0);
        sheet.capacity.len() == 4 && (1..=4).all(empty)
    }),
];

const WINDOWS: [(&str, Wanted); 2] = [
    ("other-empty-trains-in-each-of-three-pairs", |_, trace| {
        let empty: Vec<Vec<usize>> = trace.entries.iter().map(|entry| entry.plan.empty_trains()).collect();
        let other = |at: usize| !empty[at].is_empty() && !empty[..at].contains(&empty[at]);
        empty.len() == 3 && (0..3).all(other)
    }),
    ("nothing-recorded-then-a-pair-with-an-empty-train", |_, trace| {
        let listed_after_nothing = trace.outcomes.ends_with(&[Outcome::Nothing, Outcome::Listed]);
        listed_after_nothing && trace.entries.last().is_some_and(|entry| !entry.plan.empty_trains().is_empty())
    }),
];

/// The loadings of the rounds that recorded a pair.
fn recorded(trace: &Trace) -> impl Iterator<Item = &Loading> {
    let recorded = |outcome: &Outcome| [Outcome::Listed, Outcome::Replaced].contains(outcome);
    let rounds = trace.loadings.iter().zip(&trace.outcomes);
    rounds.filter(move |(_, outcome)| recorded(outcome)).map(|(loading, _)| loading)
}

/// Whether after some rounds a train of the printed plan is loaded thus while an order rides behind it that may ride it, and that may not ride the last
/// train any more; another order rides ahead.
fn passed_by(sheet: &Sheet, trace: &Trace, loaded: fn(usize, usize) -> bool) -> bool {
    let (_, q) = sheet.size();
    let Some(last) = recorded(trace).last() else { return false };
    let Loading { latest, train } = last;
    let passes = |i: usize| (0..train.len()).any(|j| usize::from(train[j]) > i && (i..q).contains(&latest[j]));
    let ahead = |i: usize| train.iter().any(|&train| usize::from(train) < i);
    let of_train = |i: usize| loaded(last.load(i), sheet.capacity[i - 1] as usize);
    trace.outcomes.len() > 5 && (1..=q).any(|i| of_train(i) && passes(i) && ahead(i))
}

fn searched(store: &mut Store) {
    let mut rng = Rng::new(41);
    let mut find = |form: Form, wanted: Wanted| find_showing(|| small_short(&mut rng, form, SMALL_ORDERS), wanted);
    for (name, wanted) in BOTH_FORMS {
        store.planned_sheet(&format!("{name}-window"), &find(Form::Windows, wanted));
        store.planned_sheet(&format!("{name}-timetable"), &find(Form::Timetable, wanted));
    }
    for (name, wanted) in WINDOWS {
        store.planned_sheet(name, &find(Form::Windows, wanted));
    }
}
