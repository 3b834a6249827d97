//! Small sheets found by random search for what their rounds show.

use crate::store::Store;
use native::draw::small_full;
use native::plan::Entry;
use native::rng::Rng;
use native::sheet::{Form, Sheet};
use native::trace::{trace, Outcome, Trace};
use Outcome::*;

/// A search gives up after so many sheets.
const MOST_TRIES: usize = 500_000;
pub const SMALL_ORDERS: u32 = 9;

/// A sheet's name, and what its rounds must show.
type Wanted = (&'static str, fn(&Trace) -> bool);

fn has(trace: &Trace, part: &[Outcome]) -> bool {
    trace.outcomes.windows(part.len()).any(|outcomes| outcomes == part)
}

fn ends(trace: &Trace, part: &[Outcome]) -> bool {
    trace.outcomes.ends_with(part)
}

const WINDOWS: [Wanted; 12] = [
    ("replaced-three-times-then-listed", |t| has(t, &[Listed, Replaced, Replaced, Replaced, Listed])),
    ("two-chains-of-replacements", |t| {
        t.outcomes.split(|outcome| *outcome != Replaced).filter(|chain| chain.len() > 1).count() > 1
    }),
    ("replaced-after-nothing", |t| has(t, &[Listed, Nothing, Replaced])),
    ("two-rounds-record-nothing-then-listed", |t| has(t, &[Nothing, Nothing, Listed])),
    ("three-rounds-record-nothing", |t| has(t, &[Nothing, Nothing, Nothing])),
    ("last-round-records-nothing", |t| ends(t, &[Listed, Nothing])),
    ("stops-for-want-of-a-window-in-round-5", |t| t.outcomes.len() == 5 && ends(t, &[Stopped])),
    ("stops-for-want-of-a-window-after-nothing", |t| ends(t, &[Nothing, Stopped])),
    ("five-pairs", |t| t.entries.len() == 5),
    ("two-pairs-all-early", |t| t.entries.len() >= 2 && t.entries[0].pair.lateness < 0),
    ("pairs-from-late-to-early", |t| {
        t.entries.len() >= 3 && t.entries[0].pair.lateness > 0 && t.entries[2].pair.lateness < 0
    }),
    ("ten-rounds-one-pair", |t| t.outcomes.len() >= 10 && t.entries.len() == 1),
];

// Each round of a timetable sheet records, since its arrivals are fixed.
const TIMETABLE: [Wanted; 4] = [
    ("replaced-five-times", |t| has(t, &[Replaced; 5])),
    ("ten-rounds", |t| t.outcomes.len() >= 10),
    ("stops-for-a-release-in-round-5", |t| t.outcomes.len() == 5 && ends(t, &[Stopped])),
    ("ends-early-after-five-rounds", |t| t.outcomes.len() >= 5 && t.entries[0].pair.lateness < 0),
];

/// Four pairs, and of each plan at least one train leaves by another window than in the plan before.
const OTHER_WINDOWS: Wanted = ("other-windows-in-each-of-four-pairs", |t| {
    let windows = |entry: &Entry| entry.plan.times.iter().map(|train| train.window).collect::<Vec<u32>>();
    t.entries.len() == 4 && t.entries.windows(2).all(|next| windows(&next[0]) != windows(&next[1]))
});

pub fn store_all(store: &mut Store) {
    let mut rng = Rng::new(11);
    let mut find = |form: Form, wanted: fn(&Trace) -> bool| {
        find_showing(|| small_full(&mut rng, form, SMALL_ORDERS), |_, trace| wanted(trace))
    };
    store.group(430);
    for (name, wanted) in WINDOWS {
        store.planned_sheet(name, &find(Form::Windows, wanted));
    }
    for (name, wanted) in TIMETABLE {
        store.planned_sheet(&format!("{name}-timetable"), &find(Form::Timetable, wanted));
    }
    let (name, wanted) = OTHER_WINDOWS;
    store.planned_sheet(name, &find(Form::Windows, wanted));
}

/// The first drawn sheet whose rounds show what is wanted.
pub fn find_showing(draw: impl FnMut() -> Sheet, wanted: impl Fn(&Sheet, &Trace) -> bool) -> Sheet {
    let mut sheets = std::iter::repeat_with(draw).take(MOST_TRIES);
    sheets.find(|sheet| wanted(sheet, &trace(sheet))).expect("a sheet that shows this")
}
