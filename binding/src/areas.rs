//! The areas lent to a call, with guards: values that no pair and no plan has, in each element and on both sides of the lent part.

use crate::calls::Row;
use native::checking::ForeignPlan;
use native::plan::NUMBERS_A_TRAIN;
use native::planner::figure;
use native::sheet::Sheet;
use std::hint::black_box;

/// How many guards stand before the lent part, and how many behind it.
const GUARDS: usize = 8;

#[derive(Clone, Debug, PartialEq, Eq)]
pub struct Area<T> {
    elements: Vec<T>,
    guard: T,
}

impl<T: Copy + PartialEq> Area<T> {
    fn new(length: usize, guard: T) -> Area<T> {
        Area { elements: vec![guard; GUARDS + length + GUARDS], guard }
    }

    /// Lent with elements to be read.
    fn holding(elements: &[T], guard: T) -> Area<T> {
        let mut area = Area::new(elements.len(), guard);
        area.lent().copy_from_slice(elements);
        area
    }

    pub fn lent(&mut self) -> &mut [T] {
        let end = self.elements.len() - GUARDS;
        &mut self.elements[GUARDS..end]
    }

    pub fn length(&self) -> usize {
        self.elements.len() - 2 * GUARDS
    }

    /// The first `count` lent elements.
    pub fn first(&self, count: usize) -> &[T] {
        &self.elements[GUARDS..GUARDS + count]
    }

    /// Every element but the first `count` lent ones still has its guard.
    pub fn guarded_but(&self, count: usize) -> bool {
        let (before, rest) = self.elements.split_at(GUARDS);
        before.iter().chain(&rest[count..]).all(|element| *element == self.guard)
    }

    /// Every element but the first `count` lent ones is as in the other.
    pub fn same_but(&self, count: usize, other: &Area<T>) -> bool {
        let (before, rest) = self.elements.split_at(GUARDS);
        let (other_before, other_rest) = other.elements.split_at(GUARDS);
        before == other_before && rest[count..] == other_rest[count..]
    }
}

/// What listing is lent: two numbers to a pair.
pub type PairsArea = Area<i64>;

impl PairsArea {
    pub fn of_length(length: usize) -> PairsArea {
        Area::new(length, i64::MIN)
    }

    /// What so many pairs take.
    pub fn length_of(pairs: usize) -> usize {
        2 * pairs
    }

    /// The least length for a sheet, be it refused or not.
    pub fn least(sheet: &Sheet) -> usize {
        PairsArea::length_of(figure(sheet))
    }
}

/// What choosing is lent: a number to an order, and three to a train.
#[derive(Clone, Debug, PartialEq, Eq)]
pub struct PlanAreas {
    pub train_of_order: Area<u8>,
    pub times: Area<u32>,
}

impl PlanAreas {
    pub fn of_lengths([train_of_order, times]: [usize; 2]) -> PlanAreas {
        PlanAreas { train_of_order: Area::new(train_of_order, u8::MAX), times: Area::new(times, u32::MAX) }
    }

    /// The least lengths for a sheet.
    pub fn least(sheet: &Sheet) -> [usize; 2] {
        let (n, q) = sheet.size();
        [n, NUMBERS_A_TRAIN * q]
    }
}

/// What a search that is watched is lent: the areas of listing and of choosing.
#[derive(Clone, Debug, PartialEq, Eq)]
pub struct SearchAreas {
    pub pairs: PairsArea,
    pub plan: PlanAreas,
}

impl SearchAreas {
    pub fn of_lengths([pairs, train_of_order, times]: [usize; 3]) -> SearchAreas {
        SearchAreas { pairs: PairsArea::of_length(pairs), plan: PlanAreas::of_lengths([train_of_order, times]) }
    }

    /// The least lengths for a sheet.
    pub fn least(sheet: &Sheet) -> [usize; 3] {
        let [train_of_order, times] = PlanAreas::least(sheet);
        [PairsArea::least(sheet), train_of_order, times]
    }

    pub fn lengths(&self) -> [usize; 3] {
        let SearchAreas { pairs, plan } = self;
        [pairs.length(), plan.train_of_order.length(), plan.times.length()]
    }

    /// Nothing but the first so many elements of each was written. The compiler does not know what a call reads only.
    pub fn guarded_but(&self, [pairs, train_of_order, times]: [usize; 3]) -> bool {
        let SearchAreas { pairs: list, plan } = black_box(self);
        list.guarded_but(pairs) && plan.train_of_order.guarded_but(train_of_order) && plan.times.guarded_but(times)
    }

    /// Every element but the first so many of each is as in the other.
    pub fn same_but(&self, [pairs, train_of_order, times]: [usize; 3], other: &SearchAreas) -> bool {
        let SearchAreas { pairs: list, plan } = black_box(self);
        list.same_but(pairs, &other.pairs)
            && plan.train_of_order.same_but(train_of_order, &other.plan.train_of_order)
            && plan.times.same_but(times, &other.plan.times)
    }
}

/// What a call is lent to read only: a plan's departures and rows, or those of trains that have gone.
#[derive(Clone, Debug, PartialEq, Eq)]
pub struct ReadAreas {
    pub departures: Area<u32>,
    pub rows: Area<Row>,
}

impl ReadAreas {
    pub fn holding(plan: &ForeignPlan) -> ReadAreas {
        ReadAreas {
            departures: Area::holding(&plan.departures, u32::MAX),
            rows: Area::holding(&exported_rows(plan), Row { order: u32::MAX, train: u32::MAX }),
        }
    }

    /// The plan still stands between its guards. The compiler does not know what the call read.
    pub fn hold(&self, plan: &ForeignPlan) -> bool {
        let ReadAreas { departures, rows } = black_box(self);
        let (q, n) = (plan.departures.len(), plan.rows.len());
        let as_lent = departures.first(q) == plan.departures && rows.first(n) == exported_rows(plan);
        as_lent && departures.guarded_but(q) && rows.guarded_but(n)
    }
}

/// What checking is lent: a plan, and what listing is lent.
pub struct CheckAreas {
    pub plan: ReadAreas,
    pub pairs: PairsArea,
}

impl CheckAreas {
    /// With a pairs area of this length.
    pub fn holding(plan: &ForeignPlan, pairs: usize) -> CheckAreas {
        CheckAreas { plan: ReadAreas::holding(plan), pairs: PairsArea::of_length(pairs) }
    }
}

fn exported_rows(plan: &ForeignPlan) -> Vec<Row> {
    plan.rows.iter().map(|row| Row { order: row.order, train: row.train }).collect()
}
