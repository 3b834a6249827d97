//! Choosing on document 01's cases.

use native::agreement::agrees;
use native::cases::{cases, sheet_of};
use native::listing::seen;
use native::plan::{times_in, Entry, Pair, Plan};
use native::planner::choose;
use native::print::INDEPENDENT;
use native::refusal::*;

const TOO_EARLY: Result<Entry, Refusal> = Err(Refusal { number: WISH_TOO_EARLY, returned: 0 });
const NONE: Result<Entry, Refusal> = Err(Refusal { number: NO_SCHEDULE, returned: 0 });
const GREATEST: u32 = u32::MAX;

/// A pair with its plan: the trains of the orders, and departure, arrival and window of each train.
fn entry(pair: (u32, i64), trains: &[u8], times: &[[u32; 3]]) -> Result<Entry, Refusal> {
    let (arrival, lateness) = pair;
    let plan = Plan { train_of_order: trains.to_vec(), times: times_in(times.as_flattened()) };
    Ok(Entry { pair: Pair { arrival, lateness }, plan })
}

fn check(text: &str, wishes: &[u32], expected: Result<Entry, Refusal>) {
    for &wish in wishes {
        assert_eq!(choose(&sheet_of(text), wish), expected, "{wish} {text}");
    }
}

/// Case b recorded (110, 150) first: the pair that replaced it comes with its own plan.
#[test]
fn cases_a_to_i() {
    let [a, b, c, d, e, f, g, h, i] = cases();
    check(&a, &[0, 109], TOO_EARLY);
    check(&a, &[110, 111, 129], entry((110, 150), &[1, 2, 2], &[[0, 30, 1], [90, 110, 1]]));
    check(&a, &[130, 131, GREATEST], entry((130, 70), &[2, 1, 2], &[[40, 70, 1], [100, 130, 1]]));
    check(&b, &[0, 109], TOO_EARLY);
    check(&b, &[110, 111, GREATEST], entry((110, 50), &[2, 1, 2], &[[40, 70, 1], [90, 110, 1]]));
    check(&c, &[0, 109], TOO_EARLY);
    check(&c, &[110, 111, 169], entry((110, 150), &[1, 2, 2], &[[0, 30, 1], [90, 110, 1]]));
    check(&c, &[170, 171, GREATEST], entry((170, 110), &[2, 1, 2], &[[40, 70, 1], [150, 170, 2]]));
    check(&d, &[0, GREATEST], NONE);
    check(&e, &[0], TOO_EARLY);
    check(&e, &[1, 2, GREATEST], entry((1, 1), &[1], &[[0, 1, 1]]));
    check(&f, &[0, GREATEST], NONE);
    check(&g, &[0], TOO_EARLY);
    check(&g, &[1, 2, GREATEST], entry((1, -1), &[1], &[[0, 1, 1]]));
    check(&h, &[0, 119], TOO_EARLY);
    check(&h, &[120, 121, GREATEST], entry((120, 60), &[2, 1, 2], &[[50, 80, 0], [95, 120, 0]]));
    check(&i, &[0, 119], TOO_EARLY);
    check(&i, &[120, 121, GREATEST], entry((120, 180), &[1, 2, 2], &[[39, 80, 0], [95, 120, 0]]));
}

/// The same wishes, against the listing of every loading.
#[test]
fn cases_by_every_loading() {
    for text in cases() {
        let sheet = sheet_of(&text);
        assert!(agrees(&INDEPENDENT, &sheet, &seen(&sheet)), "{text}");
    }
}
