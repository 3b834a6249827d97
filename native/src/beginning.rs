//! The schedules that begin with the trains which have gone and whose others keep to the minute, straight from document 02's request 13. With none gone at
//! minute 0 they are all.

use crate::checking::{ForeignPlan, Row};
use crate::gone::Gone;
use crate::plan::{Plan, Times};
use crate::sheet::{Paths, Sheet};
use std::ops::{Range, RangeInclusive};

/// What such a schedule keeps to.
pub(crate) struct Beginning {
    /// Of each order the trains, from 0, that it may ride: its own if it has gone, else those that have not.
    pub rides: Vec<Range<usize>>,
    /// Of each train the minutes at which it may leave: its own if it has gone, else those from the minute on.
    pub leaves: Vec<RangeInclusive<u32>>,
}

impl Beginning {
    /// Of a gone part that is not refused.
    pub fn of(sheet: &Sheet, Gone { minute, trains: ForeignPlan { departures, rows } }: &Gone) -> Beginning {
        let (n, q) = sheet.size();
        let mut rides = vec![departures.len()..q; n];
        for row in rows {
            let train = row.train as usize;
            rides[row.order as usize - 1] = train - 1..train;
        }
        let mut leaves = vec![*minute..=u32::MAX; q];
        for (leaves, &departure) in leaves.iter_mut().zip(departures) {
            *leaves = departure..=departure;
        }
        Beginning { rides, leaves }
    }
}

impl Gone {
    /// Whether a plan begins with the gone trains, at their times and with their orders and no others, and has its other trains keep to the minute.
    pub fn begins(&self, plan: &Plan) -> bool {
        let ForeignPlan { departures, rows } = &self.trains;
        let (first, others) = plan.times.split_at(departures.len());
        let by_order = |rows: &[Row]| {
            let mut rows: Vec<(u32, u32)> = rows.iter().map(|row| (row.order, row.train)).collect();
            rows.sort_unstable();
            rows
        };
        let mut on_first = ForeignPlan::from(plan).rows;
        on_first.retain(|row| row.train as usize <= first.len());
        first.iter().map(|train| train.departure).eq(departures.iter().copied())
            && by_order(&on_first) == by_order(rows)
            && others.iter().all(|train| train.departure >= self.minute)
    }

    /// Whether each empty train of a plan, but for the gone ones, leaves at the first minute that window, gap and minute allow.
    pub fn empty_trains_hurry(&self, sheet: &Sheet, plan: &Plan) -> bool {
        let Paths::Windows(windows) = &sheet.paths else { panic!("a sheet of the window form") };
        let open =
            |instant: &u32| windows.from.iter().zip(&windows.to).any(|(from, to)| from <= instant && instant <= to);
        let behind = |ahead: &Times| ahead.departure + windows.gap;
        let first_minute = |i: usize| {
            let earliest = i.checked_sub(2).map_or(0, |ahead| behind(&plan.times[ahead]));
            (earliest.max(self.minute)..).find(open)
        };
        let mut empty = plan.empty_trains();
        empty.retain(|&i| i > self.trains.departures.len());
        empty.into_iter().all(|i| first_minute(i) == Some(plan.times[i - 1].departure))
    }
}
