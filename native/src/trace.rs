//! The rounds written down word for word, slowly, with what each round shows.
//! Only for tests and for finding sheets that show something.

use crate::gone::Ahead;
use crate::plan::{Entry, Pair, Plan, Times};
use crate::sheet::{Paths, Sheet, Timetable, Windows};

#[derive(Clone, Copy, Debug, PartialEq, Eq)]
pub enum Outcome {
    /// Step 2 found no departure.
    Stopped,
    /// A new last pair.
    Listed,
    /// The last pair was replaced.
    Replaced,
    /// The worst lateness was not below the limit.
    Nothing,
}

/// A round's loading: the latest trains that it keeps to, and the train of each order.
#[derive(Clone, Debug, PartialEq, Eq)]
pub struct Loading {
    pub latest: Vec<usize>,
    pub train: Vec<u8>,
}

impl Loading {
    /// How many orders ride train i.
    pub fn load(&self, i: usize) -> usize {
        self.train.iter().filter(|&&train| usize::from(train) == i).count()
    }
}

#[derive(Clone, Debug, Default, PartialEq, Eq)]
pub struct Trace {
    pub loadings: Vec<Loading>,
    pub outcomes: Vec<Outcome>,
    /// The listed pairs with their plans.
    pub entries: Vec<Entry>,
    /// The pairs listed by the end of each round.
    pub lists: Vec<Vec<Pair>>,
}

impl Trace {
    fn end_round(&mut self, outcome: Outcome) {
        self.outcomes.push(outcome);
        self.lists.push(self.entries.iter().map(|entry| entry.pair).collect());
    }
}

/// A round: its loading and, unless step 2 stops it, the steps that follow.
pub struct Round {
    pub train: Vec<u8>,
    pub rest: Option<Rest>,
}

/// What steps 2 to 5 of a round come to.
pub struct Rest {
    pub times: Vec<Times>,
    /// The last arrival and the worst lateness.
    pub pair: Pair,
    /// The worst lateness is below the limit, and becomes it.
    pub better: bool,
    /// The latest trains as step 4 lowers them.
    pub latest: Vec<usize>,
    /// Step 5 stops.
    pub crowded: bool,
}

pub fn trace(sheet: &Sheet) -> Trace {
    trace_behind(sheet, Ahead::default())
}

/// The rounds behind trains that have gone. One whose z equals the worst of their orders is the last.
pub fn trace_behind(sheet: &Sheet, ahead: Ahead) -> Trace {
    let (n, q) = sheet.size();
    let mut latest = vec![q; n];
    let mut limit = None; // above everything
    let mut trace = Trace::default();
    loop {
        let Round { train, rest } = round_behind(sheet, ahead, &latest, limit);
        trace.loadings.push(Loading { latest, train: train.clone() });
        let Some(rest) = rest else {
            trace.end_round(Outcome::Stopped);
            return trace;
        };
        if rest.better {
            limit = Some(rest.pair.lateness);
            record(&mut trace, Entry { pair: rest.pair, plan: Plan { train_of_order: train, times: rest.times } });
        } else {
            trace.end_round(Outcome::Nothing);
        }
        if rest.crowded || Some(rest.pair.lateness) == ahead.worst {
            return trace;
        }
        latest = rest.latest;
    }
}

/// One round, from these latest trains and this limit; where there is none it is above everything.
pub fn round(sheet: &Sheet, latest: &[usize], limit: Option<i64>) -> Round {
    round_behind(sheet, Ahead::default(), latest, limit)
}

/// The same behind trains that have gone.
pub fn round_behind(sheet: &Sheet, ahead: Ahead, latest: &[usize], limit: Option<i64>) -> Round {
    let loads = load(sheet, latest);
    let train = train_of_order(&loads, latest.len());
    let rest = times_of(sheet, ahead, &loads).map(|times| rest(sheet, ahead, &train, times, latest, limit));
    Round { train, rest }
}

/// Steps 3 to 5.
fn rest(sheet: &Sheet, ahead: Ahead, train: &[u8], times: Vec<Times>, latest: &[usize], limit: Option<i64>) -> Rest {
    let lateness = |j: usize, i: usize| sheet.orders.lateness(j, times[i - 1].arrival);
    let left = (0..train.len()).map(|j| lateness(j, train[j].into()));
    let worst = left.chain(ahead.worst).max().expect("an order");
    let better = limit.is_none_or(|y| worst < y);
    let limit = if better { Some(worst) } else { limit };
    let below = |j: usize, i: usize| limit.is_some_and(|y| lateness(j, i) < y);
    let lowered = |(j, &last): (usize, &usize)| (1..=last).rev().find(|&i| below(j, i)).unwrap_or(0);
    let latest: Vec<usize> = latest.iter().enumerate().map(lowered).collect();
    let crowded = crowded(&sheet.capacity, &latest);
    let pair = Pair { arrival: times.last().expect("a train").arrival, lateness: worst };
    Rest { times, pair, better, latest, crowded }
}

/// Step 1: the orders of each train, by index.
fn load(sheet: &Sheet, latest: &[usize]) -> Vec<Vec<usize>> {
    let (n, q) = sheet.size();
    let mut waiting: Vec<usize> = (0..n).collect();
    waiting.sort_by_key(|&j| std::cmp::Reverse((sheet.orders.release[j], j)));
    let mut loads = vec![Vec::new(); q];
    for i in (1..=q).rev() {
        let places = sheet.capacity[i - 1] as usize;
        let takes: Vec<usize> = waiting.iter().copied().filter(|&j| latest[j] >= i).take(places).collect();
        waiting.retain(|j| !takes.contains(j));
        loads[i - 1] = takes;
    }
    loads
}

fn train_of_order(loads: &[Vec<usize>], n: usize) -> Vec<u8> {
    let mut train = vec![0; n];
    for (i, load) in loads.iter().enumerate() {
        load.iter().for_each(|&j| train[j] = i as u8 + 1);
    }
    train
}

/// Step 2: none to stop.
fn times_of(sheet: &Sheet, ahead: Ahead, loads: &[Vec<usize>]) -> Option<Vec<Times>> {
    let greatest = |load: &Vec<usize>| load.iter().map(|&j| sheet.orders.release[j]).max().unwrap_or(0);
    let greatest: Vec<u32> = loads.iter().map(greatest).collect();
    match &sheet.paths {
        Paths::Windows(windows) => window_times(windows, ahead, &greatest),
        Paths::Timetable(timetable) => fixed_times(timetable, &greatest),
    }
}

fn window_times(windows: &Windows, first: Ahead, greatest: &[u32]) -> Option<Vec<Times>> {
    let mut times: Vec<Times> = Vec::new();
    for (release, running) in greatest.iter().zip(&windows.running) {
        let ahead = times.last();
        let wish = ahead.map_or(first.departure, |ahead| ahead.departure + windows.gap).max(*release);
        let open = (0..windows.from.len()).filter(|&at| windows.to[at] >= wish);
        let (departure, window) = open.map(|at| (windows.from[at].max(wish), at as u32 + 1)).min()?;
        let alone = departure + running;
        let arrival = ahead.map_or(first.arrival, |ahead| ahead.arrival + windows.gap).max(alone);
        times.push(Times { departure, arrival, window });
    }
    Some(times)
}

fn fixed_times(timetable: &Timetable, greatest: &[u32]) -> Option<Vec<Times>> {
    if greatest.iter().zip(&timetable.departure).any(|(release, departure)| release > departure) {
        return None;
    }
    let columns = timetable.departure.iter().zip(&timetable.arrival);
    Some(columns.map(|(&departure, &arrival)| Times { departure, arrival, window: 0 }).collect())
}

/// Step 3, where the worst lateness is below the limit.
fn record(trace: &mut Trace, entry: Entry) {
    let replaces = trace.entries.last().is_some_and(|last| last.pair.arrival == entry.pair.arrival);
    if replaces {
        trace.entries.pop();
    }
    trace.entries.push(entry);
    trace.end_round(if replaces { Outcome::Replaced } else { Outcome::Listed });
}

/// Step 5.
fn crowded(capacity: &[u32], latest: &[usize]) -> bool {
    (0..=capacity.len()).any(|i| {
        let places: u32 = capacity[..i].iter().sum();
        latest.iter().filter(|&&last| last <= i).count() > places as usize
    })
}
