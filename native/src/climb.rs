//! A climb by small changes of the orders towards a sheet with many rounds.

use crate::limits::LAST_INSTANT;
use crate::planner::list;
use crate::rng::Rng;
use crate::sheet::{Orders, Sheet};

/// The most changes in one step.
const MOST_CHANGES: u32 = 4;

pub fn climb(rng: &mut Rng, mut sheet: Sheet, steps: u32) -> Sheet {
    let rounds = |sheet: &Sheet| list(sheet).map_or(0, |listing| listing.rounds);
    let mut most = rounds(&sheet);
    for _ in 0..steps {
        let mut changed = sheet.clone();
        for _ in 0..rng.within(1, MOST_CHANGES) {
            change_orders(rng, &mut changed.orders);
        }
        let now = rounds(&changed);
        if now >= most {
            (most, sheet) = (now, changed);
        }
    }
    sheet
}

/// One order's release, due time or weight is changed, or two orders change places.
fn change_orders(rng: &mut Rng, orders: &mut Orders) {
    let (j, other) = (rng.index(orders.len()), rng.index(orders.len()));
    match rng.within(0, 4) {
        0 => orders.release[j] = orders.release[other],
        1 => orders.due[j] = (orders.due[other] + rng.within(0, 40)).min(LAST_INSTANT),
        2 => orders.due[j] = rng.within(0, LAST_INSTANT),
        3 => orders.weight[j] = orders.weight[other].max(2) - rng.within(0, 1),
        _ => {
            orders.release.swap(j, other);
            orders.due.swap(j, other);
            orders.weight.swap(j, other);
        }
    }
}
