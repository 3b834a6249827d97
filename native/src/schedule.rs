//! Whether a plan is a schedule of its sheet, straight from the model, and the pair that it has.

use crate::plan::{Pair, Plan, Times};
use crate::sheet::{Paths, Sheet, Timetable, Windows};

/// The plan's own pair; none if the plan is no schedule with the model's arrivals.
pub fn pair_of(sheet: &Sheet, plan: &Plan) -> Option<Pair> {
    if (plan.train_of_order.len(), plan.times.len()) != sheet.size() {
        return None;
    }
    let timed = match &sheet.paths {
        Paths::Windows(windows) => timed_in_windows(windows, &plan.times),
        Paths::Timetable(timetable) => timed_by_timetable(timetable, &plan.times),
    };
    if timed && no_train_overfull(&sheet.capacity, plan) {
        loaded_pair(sheet, plan)
    } else {
        None
    }
}

fn timed_in_windows(windows: &Windows, times: &[Times]) -> bool {
    let in_window =
        |train: &Times| windows.from.iter().zip(&windows.to).any(|(from, to)| (*from..=*to).contains(&train.departure));
    let follows = |i: usize| {
        let alone = times[i].departure + windows.running[i];
        if i == 0 {
            return times[i].arrival == alone;
        }
        let ahead = times[i - 1];
        times[i].departure >= ahead.departure + windows.gap
            && times[i].arrival == alone.max(ahead.arrival + windows.gap)
    };
    times.iter().all(in_window) && (0..times.len()).all(follows)
}

fn timed_by_timetable(timetable: &Timetable, times: &[Times]) -> bool {
    let fixed = timetable.departure.iter().zip(&timetable.arrival);
    fixed.eq(times.iter().map(|train| (&train.departure, &train.arrival)))
}

fn no_train_overfull(capacity: &[u32], plan: &Plan) -> bool {
    let load = |i: usize| plan.train_of_order.iter().filter(|&&train| usize::from(train) == i + 1).count();
    (0..capacity.len()).all(|i| load(i) <= capacity[i] as usize)
}

/// None if an order rides no train, or one that departs before its release.
fn loaded_pair(sheet: &Sheet, plan: &Plan) -> Option<Pair> {
    let mut worst = i64::MIN;
    for (j, &train) in plan.train_of_order.iter().enumerate() {
        let times = plan.times.get(usize::from(train).checked_sub(1)?)?;
        if sheet.orders.release[j] > times.departure {
            return None;
        }
        worst = worst.max(sheet.orders.lateness(j, times.arrival));
    }
    Some(Pair { arrival: plan.times.last()?.arrival, lateness: worst })
}
