//! The rounds of an admitted sheet, for benchmarks and comparison; unbroken for listing, choosing and checking, or one by one.
//! While they run, two bytes are kept for each order, its train and its latest train; and, but for rounds one by one, the plan of every listed pair.

use crate::gone::Ahead;
use crate::limits::*;
use crate::plan::{Entry, Listing, Pair, Plan, Times};
use crate::refusal::*;
use crate::sheet::{Orders, Paths, Sheet, Timetable, Windows};

/// The entries of the listed pairs, by rising arrival, and how many rounds were made.
#[derive(Clone, Debug, PartialEq, Eq)]
pub struct Recorded {
    pub entries: Vec<Entry>,
    pub rounds: usize,
}

impl Recorded {
    /// What listing gives of it.
    pub fn listing(&self) -> Listing {
        Listing { pairs: self.entries.iter().map(|entry| entry.pair).collect(), rounds: self.rounds }
    }

    /// The last listed pair that is not later than the wished arrival, with its plan.
    pub fn chosen(&self, wish: u32) -> Result<&Entry, Refusal> {
        let in_time = |entry: &&Entry| entry.pair.arrival <= wish;
        self.entries.iter().rev().find(in_time).ok_or(Refusal::of_all(WISH_TOO_EARLY))
    }
}

/// A search between two rounds.
#[derive(Clone, Debug, PartialEq, Eq)]
pub struct Search {
    /// Of each order: its train in the last round, and its latest train.
    pub train: Vec<u8>,
    pub latest: Vec<u8>,
    /// Of each train, in the last round: the greatest release on it, and its times.
    greatest: Vec<u32>,
    times: Vec<Times>,
    limit: i64,
    /// The arrival of the pair recorded last.
    last: Option<u32>,
    rounds: usize,
    stopped: bool,
    ahead: Ahead,
}

/// What a round recorded.
pub struct Better<'a> {
    pub pair: Pair,
    /// The pair before it has the same arrival, and is replaced.
    pub replaces: bool,
    pub train_of_order: &'a [u8],
    pub times: &'a [Times],
}

impl Search {
    /// Before the first round: every order may ride the last train.
    pub fn start(sheet: &Sheet) -> Search {
        Search::start_behind(sheet, Ahead::default())
    }

    /// The same behind trains that have gone.
    pub fn start_behind(sheet: &Sheet, ahead: Ahead) -> Search {
        let (n, q) = sheet.size();
        let (train, latest) = (vec![0; n], vec![q as u8; n]);
        let (greatest, times) = (vec![0; q], vec![Times::default(); q]);
        Search { train, latest, greatest, times, limit: i64::MAX, last: None, rounds: 0, stopped: false, ahead }
    }

    /// One round; gives what it recorded, if anything.
    pub fn round(&mut self, sheet: &Sheet) -> Option<Better<'_>> {
        let Sheet { capacity, orders, paths } = sheet;
        let Search { train, latest, greatest, times, ahead, .. } = self;
        self.rounds += 1;
        load(&orders.release, capacity, latest, train, greatest);
        self.stopped = !run(paths, ahead, greatest, times);
        if self.stopped {
            return None;
        }
        let lateness = worst_lateness(orders, train, times).max(ahead.worst).expect("an order");
        let pair = Pair { arrival: times[times.len() - 1].arrival, lateness };
        let better = pair.lateness < self.limit;
        let replaces = self.last == Some(pair.arrival);
        if better {
            self.limit = pair.lateness;
            self.last = Some(pair.arrival);
        }
        self.stopped = ahead.worst == Some(lateness);
        if !self.stopped {
            lower(orders, times, self.limit, latest);
            self.stopped = crowded(capacity, latest);
        }
        better.then_some(Better { pair, replaces, train_of_order: train, times })
    }

    /// Whether a further round is made: none after a stop.
    pub fn goes_on(&self) -> bool {
        !self.stopped
    }

    /// What a search that no longer goes on comes to: how many rounds were made; refused with 8 where nothing is recorded.
    pub fn end(&self) -> Result<usize, Refusal> {
        self.last.map(|_| self.rounds).ok_or(Refusal::of_all(NO_SCHEDULE))
    }
}

/// Every round, with the plan of each listed pair kept.
pub fn search(sheet: &Sheet) -> Result<Recorded, Refusal> {
    search_behind(sheet, Ahead::default())
}

/// The same behind trains that have gone: no plan is less late than the worst of their orders, so a round that comes to it is the last.
pub fn search_behind(sheet: &Sheet, ahead: Ahead) -> Result<Recorded, Refusal> {
    let mut search = Search::start_behind(sheet, ahead);
    let mut entries = Vec::new();
    while search.goes_on() {
        if let Some(better) = search.round(sheet) {
            record(&mut entries, better);
        }
    }
    search.end().map(|rounds| Recorded { entries, rounds })
}

/// Marks an order that waits: its byte holds this plus its latest train.
const WAITS: u8 = 128;

/// A key joins an order's release and its number, which takes these low bits.
const NUMBER_BITS: u32 = 8;
const NUMBER_MASK: u32 = (1 << NUMBER_BITS) - 1;

/// Step 1 by direct picks. Also gives the greatest release on each train; 0 where it is empty.
fn load(release: &[u32], capacity: &[u32], latest: &[u8], train: &mut [u8], greatest: &mut [u32]) {
    for (mark, last) in train.iter_mut().zip(latest) {
        *mark = WAITS + last;
    }
    for i in (0..capacity.len()).rev() {
        greatest[i] = fill(release, capacity[i], i as u8 + 1, train);
    }
    debug_assert!(train.iter().all(|&mark| mark < WAITS), "step 5 leaves a place for every order");
}

/// Puts orders on a train until it is full or none waits for it, and gives the greatest release on it.
fn fill(release: &[u32], places: u32, this: u8, train: &mut [u8]) -> u32 {
    let mut greatest = 0;
    for pick in 0..places {
        let key = greatest_waiting(release, train, WAITS + this);
        if key == 0 {
            break;
        }
        train[(key & NUMBER_MASK) as usize - 1] = this;
        if pick == 0 {
            greatest = key >> NUMBER_BITS;
        }
    }
    greatest
}

/// The key of the order to take next; 0 if none waits for this train. Keys fit in an i32, for which x86-64 compares many at once.
fn greatest_waiting(release: &[u32], mark: &[u8], least: u8) -> u32 {
    let mut best = 0i32;
    let mut number = 0;
    for (r, m) in release.iter().zip(mark) {
        number += 1;
        let key = (r << NUMBER_BITS) as i32 | number;
        let key = if *m >= least { key } else { 0 };
        best = if key > best { key } else { best };
    }
    best as u32
}

/// Step 2: from the greatest release on each train to its times; false to stop.
fn run(paths: &Paths, ahead: &Ahead, greatest: &[u32], times: &mut [Times]) -> bool {
    match paths {
        Paths::Windows(windows) => run_windows(windows, ahead, greatest, times),
        Paths::Timetable(timetable) => run_timetable(timetable, greatest, times),
    }
}

fn run_windows(windows: &Windows, ahead: &Ahead, greatest: &[u32], times: &mut [Times]) -> bool {
    let mut window = 0;
    let (mut earliest_departure, mut earliest_arrival) = (ahead.departure, ahead.arrival);
    for (i, slot) in times.iter_mut().enumerate() {
        let wish = greatest[i].max(earliest_departure);
        while window < windows.to.len() && windows.to[window] < wish {
            window += 1;
        }
        if window == windows.to.len() {
            return false;
        }
        let departure = wish.max(windows.from[window]);
        let arrival = (departure + windows.running[i]).max(earliest_arrival);
        *slot = Times { departure, arrival, window: window as u32 + 1 };
        earliest_departure = departure + windows.gap;
        earliest_arrival = arrival + windows.gap;
    }
    true
}

fn run_timetable(timetable: &Timetable, greatest: &[u32], times: &mut [Times]) -> bool {
    for (i, slot) in times.iter_mut().enumerate() {
        if greatest[i] > timetable.departure[i] {
            return false;
        }
        *slot = Times { departure: timetable.departure[i], arrival: timetable.arrival[i], window: 0 };
    }
    true
}

/// Step 3's z; none without an order.
fn worst_lateness(orders: &Orders, train: &[u8], times: &[Times]) -> Option<i64> {
    let of_order = |(j, &i): (usize, &u8)| orders.lateness(j, times[usize::from(i) - 1].arrival);
    train.iter().enumerate().map(of_order).max()
}

/// Step 3, where the worst lateness is below the limit: an entry with the same last arrival as the one before replaces it.
fn record(entries: &mut Vec<Entry>, Better { pair, replaces, train_of_order, times }: Better) {
    if replaces {
        entries.pop();
    }
    entries.push(Entry { pair, plan: Plan { train_of_order: train_of_order.to_vec(), times: times.to_vec() } });
}

/// Step 4.
fn lower(orders: &Orders, times: &[Times], limit: i64, latest: &mut [u8]) {
    for (j, last) in latest.iter_mut().enumerate() {
        while *last > 0 && orders.lateness(j, times[usize::from(*last) - 1].arrival) >= limit {
            *last -= 1;
        }
    }
}

/// Step 5: more orders with a latest train <= i than places up to train i.
fn crowded(capacity: &[u32], latest: &[u8]) -> bool {
    let mut count = [0u32; MOST_TRAINS + 1];
    for &last in latest {
        count[usize::from(last)] += 1;
    }
    let mut orders = count[0];
    let mut places = 0;
    orders > 0
        || capacity.iter().zip(&count[1..]).any(|(k, c)| {
            orders += c;
            places += k;
            orders > places
        })
}
