//! One sheet, timed.

use binding::areas::{CheckAreas, PairsArea, PlanAreas, ReadAreas, SearchAreas};
use binding::exported::ExportedSheet;
use native::admission::admit;
use native::checking::{check_in, Checked, ForeignPlan};
use native::gone::Gone;
use native::plan::{Entry, Pair};
use native::planner::{choose_in, figure, list_in, Counts};
use native::replan::relist_in;
use native::search::{search, Recorded};
use native::sheet::{Form, Sheet};
use native::watching::{self, Said, Watched};
use std::hint::black_box;
use std::time::{Duration, Instant};

/// Short calls are timed in batches that take at least so long.
const BATCH: Duration = Duration::from_millis(1);

/// Microseconds a call.
pub struct Timed {
    pub product: f64,
    pub independent: f64,
}

impl Timed {
    /// Each figure is the median of the turns.
    fn of(turns: Vec<(f64, f64)>) -> Timed {
        let (product, independent) = turns.into_iter().unzip();
        Timed { product: median(product), independent: median(independent) }
    }

    pub fn ratio(&self) -> f64 {
        self.product / self.independent
    }
}

/// A sheet with its listed pairs and their plans.
pub struct Bench<'a> {
    sheet: &'a Sheet,
    exported: ExportedSheet,
    recorded: Recorded,
    repeats: usize,
}

impl Bench<'_> {
    /// None for a sheet without a plan.
    pub fn new(sheet: &Sheet, repeats: usize) -> Option<Bench<'_>> {
        admit(sheet).ok()?;
        Some(Bench { sheet, exported: sheet.into(), recorded: search(sheet).ok()?, repeats })
    }

    /// By rising arrival.
    pub fn entries(&self) -> &[Entry] {
        &self.recorded.entries
    }

    pub fn rounds(&self) -> usize {
        self.recorded.rounds
    }

    fn counts(&self) -> Counts {
        Counts { pairs: self.entries().len(), rounds: self.rounds() }
    }

    /// Both must list as many pairs in as many rounds.
    pub fn time_listing(&self) -> Timed {
        let Bench { sheet, exported, repeats, .. } = self;
        let mut area = PairsArea::of_length(PairsArea::least(sheet));
        let mut pairs = vec![Pair::default(); figure(sheet)];
        let (turns, reply, counts) =
            in_turns(*repeats, || black_box(exported).list_in(&mut area), || list_in(black_box(sheet), &mut pairs));
        assert_eq!(Counts { pairs: reply.pairs, rounds: reply.rounds }, self.counts(), "{sheet:?}");
        assert_eq!(counts, Ok(self.counts()), "{sheet:?}");
        Timed::of(turns)
    }

    /// By the arrival of a listed pair, which both must choose.
    pub fn time_choosing(&self, pair: Pair) -> Timed {
        let Bench { sheet, exported, repeats, .. } = self;
        let lengths = PlanAreas::least(sheet);
        let mut areas = PlanAreas::of_lengths(lengths);
        let (mut train_of_order, mut times) = (vec![0; lengths[0]], vec![0; lengths[1]]);
        let wish = pair.arrival;
        let (turns, reply, chosen) = in_turns(
            *repeats,
            || black_box(exported).choose_in(wish, &mut areas),
            || choose_in(black_box(sheet), wish, &mut train_of_order, &mut times),
        );
        assert_eq!(Pair { arrival: reply.last, lateness: reply.worst }, pair, "{sheet:?}");
        assert_eq!(chosen, Ok(pair), "{sheet:?}");
        Timed::of(turns)
    }

    /// Of the plan of a listed pair, told in rows: both must say that it is a schedule and that this pair is its own and listed.
    pub fn time_checking(&self, Entry { pair, plan }: &Entry) -> Timed {
        let Bench { sheet, exported, repeats, .. } = self;
        let plan = ForeignPlan::from(plan);
        let mut areas = CheckAreas::holding(&plan, PairsArea::least(sheet));
        let mut pairs = vec![Pair::default(); figure(sheet)];
        let (turns, reply, checked) = in_turns(
            *repeats,
            || black_box(exported).check_in(&mut areas),
            || check_in(black_box(sheet), &plan, &mut pairs),
        );
        assert_eq!(reply.cause.number, 0, "{sheet:?}");
        let said = Checked {
            pair: Pair { arrival: reply.last, lateness: reply.worst },
            listed: reply.listed,
            counts: Counts { pairs: reply.pairs, rounds: reply.rounds },
        };
        let expected = Checked { pair: *pair, listed: true, counts: self.counts() };
        assert_eq!((said, checked), (expected, Ok(expected)), "{sheet:?}");
        Timed::of(turns)
    }

    /// The whole search by single round calls: both must come to as many pairs in as many rounds.
    pub fn time_watching(&self) -> Timed {
        let Bench { sheet, exported, repeats, .. } = self;
        let lengths = SearchAreas::least(sheet);
        let mut areas = SearchAreas::of_lengths(lengths);
        let mut own_areas = watching::SearchAreas {
            pairs: vec![Pair::default(); figure(sheet)],
            train_of_order: vec![0; lengths[1]],
            times: vec![0; lengths[2]],
        };
        let (turns, counts, said) = in_turns(
            *repeats,
            || watch(black_box(exported), &mut areas),
            || watch_independently(black_box(sheet), &mut own_areas),
        );
        assert_eq!(counts, self.counts(), "{sheet:?}");
        assert_eq!(said, Said::Ended(self.counts()), "{sheet:?}");
        Timed::of(turns)
    }

    /// Listing anew in one turn, when so many first trains have left as in the first listed plan; none in the timetable form, or if no train remains.
    /// Both must list as many pairs in as many rounds.
    pub fn time_relisting(&self, trains: usize) -> Option<Timed> {
        let Bench { sheet, exported, .. } = self;
        if sheet.form() == Form::Timetable || trains >= sheet.capacity.len() {
            return None;
        }
        let gone = first_gone(&self.entries()[0], trains);
        let mut lent = ReadAreas::holding(&gone.trains);
        let mut area = PairsArea::of_length(PairsArea::least(sheet));
        let mut pairs = vec![Pair::default(); figure(sheet)];
        let (turns, reply, counts) = in_turns(
            1,
            || black_box(exported).relist_in(gone.minute, &mut lent, &mut area),
            || relist_in(black_box(sheet), &gone, &mut pairs),
        );
        assert_eq!(Ok(Counts { pairs: reply.pairs, rounds: reply.rounds }), counts, "{sheet:?}");
        Some(Timed::of(turns))
    }

    /// How many microseconds longer than its listing the product's checking of this plan takes.
    pub fn checking_beyond_listing(&self, Entry { plan, .. }: &Entry) -> f64 {
        let mut areas = CheckAreas::holding(&plan.into(), PairsArea::least(self.sheet));
        self.beyond_listing(|exported| {
            let reply = exported.check_in(&mut areas);
            Counts { pairs: reply.pairs, rounds: reply.rounds }
        })
    }

    /// How many microseconds longer than its listing the product's search by single round calls takes.
    pub fn watching_beyond_listing(&self) -> f64 {
        let mut areas = SearchAreas::of_lengths(SearchAreas::least(self.sheet));
        self.beyond_listing(|exported| watch(exported, &mut areas))
    }

    /// The same of a call with as many pairs and rounds: the median of the turns.
    fn beyond_listing(&self, mut call: impl FnMut(&ExportedSheet) -> Counts) -> f64 {
        let Bench { sheet, exported, repeats, .. } = self;
        let mut area = PairsArea::of_length(PairsArea::least(sheet));
        let (turns, listing, counts) =
            in_turns(*repeats, || black_box(exported).list_in(&mut area), || call(black_box(exported)));
        assert_eq!(counts, Counts { pairs: listing.pairs, rounds: listing.rounds }, "{sheet:?}");
        median(turns.into_iter().map(|(listing, call)| call - listing).collect())
    }
}

/// So many of a plan's first trains with their orders, at the minute when the last of them has left.
fn first_gone(Entry { plan, .. }: &Entry, count: usize) -> Gone {
    let mut trains = ForeignPlan::from(plan);
    trains.departures.truncate(count);
    trains.rows.retain(|row| row.train as usize <= count);
    Gone { minute: trains.departures.last().copied().unwrap_or(0), trains }
}

/// The product's search by single round calls, and what the last of them counts.
fn watch(sheet: &ExportedSheet, areas: &mut SearchAreas) -> Counts {
    let start = sheet.start_in(areas);
    let mut reply = sheet.round_in(&start.state, areas);
    while !reply.ended {
        reply = sheet.round_in(&reply.state, areas);
    }
    Counts { pairs: reply.pairs, rounds: reply.rounds }
}

/// The independent planner's, and what its last call says.
fn watch_independently(sheet: &Sheet, areas: &mut watching::SearchAreas) -> Said {
    let lengths = [areas.pairs.len(), areas.train_of_order.len(), areas.times.len()];
    let mut search = Watched::start(sheet, lengths).expect("an admitted sheet");
    loop {
        let said = search.round(sheet, areas);
        if said != Said::GoesOn {
            return said;
        }
    }
}

/// Two calls take turns. Gives the microseconds a call of both in each turn, and the last reply of each.
fn in_turns<A, B>(
    repeats: usize,
    mut first: impl FnMut() -> A,
    mut second: impl FnMut() -> B,
) -> (Vec<(f64, f64)>, A, B) {
    let mut turns = Vec::new();
    loop {
        let ((one, reply), (other, answer)) = (micros(&mut first), micros(&mut second));
        turns.push((one, other));
        if turns.len() >= repeats {
            return (turns, reply, answer);
        }
    }
}

/// Microseconds a call, over as many calls as a batch takes, and the last reply.
fn micros<R>(mut call: impl FnMut() -> R) -> (f64, R) {
    let start = Instant::now();
    let mut calls = 0.0;
    loop {
        let reply = black_box(call());
        calls += 1.0;
        let passed = start.elapsed();
        if passed >= BATCH {
            return (passed.as_secs_f64() * 1e6 / calls, reply);
        }
    }
}

fn median(mut values: Vec<f64>) -> f64 {
    values.sort_by(f64::total_cmp);
    values[values.len() / 2]
}
