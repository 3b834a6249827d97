//! The independent planner against the listing of every loading, short ones too.

use native::agreement::agrees;
use native::draw::small;
use native::every_plan::plan_count;
use native::listing::{seen, seen_with_all_departures};
use native::print::INDEPENDENT;
use native::rng::Rng;
use native::search::search;
use native::sheet::{Form, Paths, Sheet};
use native::wishes::wishes;

/// How many sheets were compared, differ, have places to spare, and have a listed plan with an empty train; how often the front was empty, had one
/// pair, and had more.
#[derive(Debug, Default)]
struct Met {
    sheets: usize,
    differ: usize,
    to_spare: usize,
    empty_train: usize,
    fronts: [usize; 3],
}

impl Met {
    /// In listing, and in choosing by the wishes around each pair.
    fn compare(&mut self, sheet: &Sheet) {
        let seen = seen(sheet);
        self.sheets += 1;
        self.to_spare += usize::from(sheet.spare_places() > Some(0));
        self.empty_train += usize::from(lists_empty_train(sheet));
        self.fronts[seen.front().len().min(2)] += 1;
        if !agrees(&INDEPENDENT, sheet, &seen) {
            self.differ += 1;
            println!("differs: {sheet:?}");
        }
    }
}

fn lists_empty_train(sheet: &Sheet) -> bool {
    search(sheet).is_ok_and(|recorded| recorded.entries.iter().any(|entry| !entry.plan.empty_trains().is_empty()))
}

/// Compares so many sheets of up to so many orders; a good share has places to spare, and many of these an empty train.
fn compare(form: Form, seed: u64, sizes: [(u32, u32); 3]) -> [usize; 3] {
    let mut rng = Rng::new(seed);
    let mut met = Met::default();
    for (sheets, most_orders) in sizes {
        (0..sheets).for_each(|_| met.compare(&small(&mut rng, form, most_orders)));
    }
    let Met { sheets, differ, to_spare, empty_train, fronts } = met;
    print!("listing, independent planner, {form:?}: {sheets} sheets compared, {differ} differ ");
    println!("({to_spare} with places to spare, {empty_train} with an empty train in a listed plan)");
    assert_eq!(differ, 0);
    assert!(3 * to_spare > sheets && 10 * empty_train > sheets, "{to_spare} {empty_train}");
    fronts
}

#[test]
fn window_sheets() {
    let fronts = compare(Form::Windows, 1, [(18_000, 5), (8_000, 7), (300, 9)]);
    assert!(fronts.iter().all(|&count| count > 1_000), "{fronts:?}");
}

#[test]
fn timetable_sheets() {
    let fronts = compare(Form::Timetable, 2, [(20_000, 5), (3_000, 7), (30, 9)]);
    assert!(fronts[..2].iter().all(|&count| count > 1_000) && fronts[2] == 0, "{fronts:?}");
}

/// All departures are gone through where there are few.
#[test]
fn earliest_departures_suffice() {
    const LAST_DEPARTURE: u32 = 14;
    const MOST_PLANS: usize = 1_000_000;
    let mut rng = Rng::new(3);
    let mut tried = 0;
    while tried < 3_000 {
        let sheet = small(&mut rng, Form::Windows, 4);
        let Paths::Windows(windows) = &sheet.paths else { panic!("a sheet of the window form") };
        if windows.to.last().is_some_and(|&to| to <= LAST_DEPARTURE) && plan_count(&sheet) <= MOST_PLANS {
            let (earliest, all) = (seen(&sheet), seen_with_all_departures(&sheet));
            let front = earliest.front();
            assert_eq!(front, all.front(), "{sheet:?}");
            assert!(wishes(&front).iter().all(|&wish| earliest.best_by(wish) == all.best_by(wish)), "{sheet:?}");
            tried += 1;
        }
    }
}
