//! Sheets whose list is as long as was said beforehand.

use crate::store::Store;
use native::cases::sheet_of;
use native::full_list::full_list;
use native::planner::{bound, list};
use native::rng::Rng;
use native::sheet::Sheet;

pub fn store_all(store: &mut Store) {
    store.group(880);
    one_train(store);
    many_trains(store, &mut Rng::new(51));
}

/// As many pairs as the figure says.
fn assert_full(sheet: &Sheet) {
    assert_eq!(list(sheet).map(|listing| listing.pairs.len()), bound(sheet), "{sheet:?}");
}

/// One pair, also in the timetable form, which never has more.
fn one_train(store: &mut Store) {
    let orders = "O,A,0,20,1\nO,B,9,20,2\nO,C,12,20,3\n";
    for (name, train, times) in [
        ("one-train-window", "G,5\nW,0,10\nW,20,30\nT,3,7\n", "20,27,2"),
        ("one-short-train-window", "G,5\nW,0,10\nW,20,30\nT,64,7\n", "20,27,2"),
        ("one-train-timetable", "X,3,15,27\n", "15,27,0"),
        ("one-short-train-timetable", "X,64,15,27\n", "15,27,0"),
    ] {
        let text = format!("{train}{orders}");
        assert_full(&sheet_of(&text));
        let plan = format!("P,27,21\nD,1,{times}\nL,A,1\nL,B,1\nL,C,1\nR,1\n");
        store.printed(&format!("list-full-{name}"), text.as_bytes(), &plan);
    }
}

/// Trains that are full, then ones with places to spare.
fn many_trains(store: &mut Store, rng: &mut Rng) {
    for (n, places, trains) in [(4, 2, 2), (9, 3, 3), (196, 28, 7), (2, 3, 4), (5, 2, 5), (64, 64, 32), (156, 64, 32)] {
        let sheet = full_list(rng, n, places, trains);
        assert_full(&sheet);
        store.planned_sheet(&format!("list-full-{n}-orders-{trains}-trains-of-{places}-window"), &sheet);
    }
}
