//! Whether the trains of a plan had to wait (request 11): no schedule whose worst lateness is no greater has a train leave or arrive earlier. It is judged by
//! every schedule of a small sheet and, on a sheet of any size, by passes over it.

use crate::gone::{Ahead, Gone, Left};
use crate::listing::{each_schedule, pair_of};
use crate::plan::{Entry, Pair, Plan};
use crate::print::Implementation;
use crate::sheet::Sheet;
use crate::trace::{round_behind, Round};
use crate::wishes::wishes;
use std::collections::BTreeMap;

/// Departure and arrival of a train.
type Instants = [u32; 2];

fn instants_of(plan: &Plan) -> Vec<Instants> {
    plan.times.iter().map(|train| [train.departure, train.arrival]).collect()
}

/// For each worst lateness the least departure and the least arrival of each train, of the schedules that have it.
pub struct Soonest(BTreeMap<i64, Vec<Instants>>);

impl Soonest {
    /// Of every loading, with every departure in the windows.
    pub fn of(sheet: &Sheet) -> Soonest {
        Soonest::behind(sheet, &Gone::default())
    }

    /// Of those that begin with the gone trains.
    pub fn behind(sheet: &Sheet, gone: &Gone) -> Soonest {
        let mut soonest: BTreeMap<i64, Vec<Instants>> = BTreeMap::new();
        each_schedule(sheet, gone, &mut |departure, train, arrival| {
            let row = departure.iter().zip(arrival).map(|(&departure, &arrival)| [departure, arrival]);
            let least = soonest.entry(pair_of(sheet, train, arrival).lateness).or_insert_with(|| row.clone().collect());
            take_least(least, row);
        });
        Soonest(soonest)
    }

    /// Every worst lateness of a schedule.
    pub fn latenesses(&self) -> Vec<i64> {
        self.0.keys().copied().collect()
    }

    /// The least of the schedules whose worst lateness is no greater; none if there is no such schedule.
    pub fn within(&self, lateness: i64) -> Option<Vec<Instants>> {
        let mut rows = self.0.range(..=lateness).map(|(_, row)| row.clone());
        let mut least = rows.next()?;
        rows.for_each(|row| take_least(&mut least, row.into_iter()));
        Some(least)
    }
}

/// The lesser departure and the lesser arrival of each train.
fn take_least(least: &mut [Instants], row: impl Iterator<Item = Instants>) {
    for (least, other) in least.iter_mut().zip(row) {
        *least = [least[0].min(other[0]), least[1].min(other[1])];
    }
}

/// The same on a sheet of any size, without its schedules. The limit, just above the lateness, stays from pass to pass. Every schedule below it keeps to the
/// latest trains and is no earlier than the pass; so no order rides a train on which it would reach the limit by the pass's own arrivals. The first pass
/// below the limit is a schedule itself.
pub fn least_within(sheet: &Sheet, lateness: i64) -> Option<Vec<Instants>> {
    plan_within(sheet, Ahead::default(), lateness).map(|plan| instants_of(&plan))
}

/// The same among the schedules that begin with gone trains.
pub fn least_within_behind(sheet: &Sheet, gone: &Gone, lateness: i64) -> Option<Vec<Instants>> {
    let left = Left::of(sheet, gone).ok()?;
    if left.ahead.worst > Some(lateness) || left.sheet.spare_places().is_none() {
        return None;
    }
    plan_within(&left.sheet, left.ahead, lateness).map(|plan| instants_of(&left.whole(&plan)))
}

fn plan_within(sheet: &Sheet, ahead: Ahead, lateness: i64) -> Option<Plan> {
    let (n, q) = sheet.size();
    let mut latest = vec![q; n];
    loop {
        let Round { train, rest } = round_behind(sheet, ahead, &latest, Some(lateness.saturating_add(1)));
        let rest = rest?;
        if rest.better {
            return Some(Plan { train_of_order: train, times: rest.times });
        }
        if rest.crowded {
            return None;
        }
        latest = rest.latest;
    }
}

/// The plans chosen by the wishes around each listed pair.
fn chosen_plans(implementation: &Implementation, sheet: &Sheet) -> Vec<Entry> {
    let pairs = (implementation.list)(sheet).map_or(Vec::new(), |listing| listing.pairs);
    wishes(&pairs).into_iter().filter_map(|wish| (implementation.choose)(sheet, wish).ok()).collect()
}

/// Of a list anew about so many pairs at most have their plans judged.
const MOST_JUDGED: usize = 8;

/// Those chosen anew behind gone trains, by the arrivals of pairs listed anew.
fn plans_anew(implementation: &Implementation, sheet: &Sheet, gone: &Gone) -> Vec<Entry> {
    let pairs = (implementation.relist)(sheet, gone).map_or(Vec::new(), |listing| listing.pairs);
    let chosen = |pair: &Pair| (implementation.rechoose)(sheet, gone, pair.arrival).ok();
    pairs.iter().rev().step_by(pairs.len().div_ceil(MOST_JUDGED).max(1)).filter_map(chosen).collect()
}

/// How many plans were given on how many sheets, and how many are needlessly late; how many of their trains are empty, and how many wait: a schedule with a
/// greater worst lateness has them leave earlier.
#[derive(Debug, Default)]
pub struct Tally {
    pub sheets: usize,
    pub plans: usize,
    pub needless: usize,
    pub empty: usize,
    pub waiting: usize,
}

impl Tally {
    /// Judges plans that the sheet gives, each by the least times within its lateness. It is a schedule itself, so these are its own. A plan that stands in
    /// the areas for several rounds is judged once.
    fn check(&mut self, sheet: &Sheet, mut plans: Vec<Entry>, least_within: impl Fn(i64) -> Option<Vec<Instants>>) {
        let ever = least_within(i64::MAX).unwrap_or_default();
        plans.dedup();
        self.sheets += 1;
        for Entry { pair, plan } in plans {
            let instants = instants_of(&plan);
            self.plans += 1;
            self.empty += plan.empty_trains().len();
            self.waiting += instants.iter().zip(&ever).filter(|(own, ever)| ever[0] < own[0]).count();
            if least_within(pair.lateness) != Some(instants) {
                self.needless += 1;
                println!("differs: {pair:?} {plan:?} {sheet:?}");
            }
        }
    }

    /// On a small sheet: every plan that it gives, chosen or standing in the areas of a watched search after a round, judged by every schedule.
    pub fn check_small(&mut self, implementation: &Implementation, sheet: &Sheet, soonest: &Soonest) {
        let mut plans = chosen_plans(implementation, sheet);
        plans.extend((implementation.watch)(sheet));
        self.check(sheet, plans, |lateness| soonest.within(lateness));
    }

    /// On a sheet of any size: every plan that stands in the areas of a watched search after a round. Those that can be chosen are among them.
    pub fn check_large(&mut self, implementation: &Implementation, sheet: &Sheet) {
        self.check(sheet, (implementation.watch)(sheet), |lateness| least_within(sheet, lateness));
    }

    /// On a small sheet whose first trains have gone: every plan that is chosen anew, judged by every schedule that begins so.
    pub fn check_small_anew(&mut self, implementation: &Implementation, sheet: &Sheet, gone: &Gone) {
        let soonest = Soonest::behind(sheet, gone);
        self.check(sheet, plans_anew(implementation, sheet, gone), |lateness| soonest.within(lateness));
    }

    /// The same on a sheet of any size, by passes over it.
    pub fn check_large_anew(&mut self, implementation: &Implementation, sheet: &Sheet, gone: &Gone) {
        let plans = plans_anew(implementation, sheet, gone);
        self.check(sheet, plans, |lateness| least_within_behind(sheet, gone, lateness));
    }

    pub fn print(&self, what: &str) {
        let Tally { sheets, plans, needless, empty, waiting } = self;
        println!("prompt, {what}: {plans} plans on {sheets} sheets, {needless} differ ({empty} empty trains, {waiting} that wait)");
    }
}
