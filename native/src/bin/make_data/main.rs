//! Writes the stored test sheets: `make_data FOLDER [FOLDER OF GIVEN SHEETS]`, where the first folder is `crates/stored`.
//! In its data/, NNN-name.sheet is the text, NNN-name.plan what the independent implementation prints, and `list` names every sheet; beside
//! it, `stdout` is what the program `stored` prints.
//! Refusals are written here by hand and compared; given sheets keep their given plans, and get the windows. Where no folder of given sheets is
//! named, those that were stored before stay.

mod by_hand;
mod bytes;
mod drawn;
mod full_lists;
mod gone;
mod limits;
mod parts;
mod searched;
mod short;
mod short_ladders;
mod store;
mod timetable_refusals;
mod waiting;
mod window_refusals;

use std::path::Path;
use store::Store;

fn main() {
    let args: Vec<String> = std::env::args().skip(1).collect();
    let mut store = Store::new(args.first().expect("a folder to write to"));
    by_hand::store_cases(&mut store);
    window_refusals::store_all(&mut store);
    timetable_refusals::store_all(&mut store);
    limits::store_all(&mut store);
    by_hand::store_all(&mut store);
    searched::store_all(&mut store);
    drawn::store_hard(&mut store);
    short_ladders::store_hard(&mut store);
    bytes::store_all(&mut store);
    drawn::store_any(&mut store);
    waiting::store_all(&mut store);
    gone::store_all(&mut store);
    short::store_all(&mut store);
    full_lists::store_all(&mut store);
    match args.get(1) {
        Some(folder) => store.given(Path::new(folder)),
        None => store.given_before(),
    }
    println!("{} sheets", store.finish());
}
