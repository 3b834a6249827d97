//! Document 01's limits.

use std::ops::RangeInclusive;

pub const MOST_WINDOWS: usize = 64;
pub const MOST_TRAINS: usize = 32;
pub const MOST_ORDERS: usize = 200;

pub const MOST_GAP: u32 = 1_440;
pub const MOST_CAPACITY: u32 = 64;
pub const MOST_RUNNING: u32 = 10_000;
pub const MOST_WEIGHT: u32 = 1_000;
/// The last instant of a window, a fixed departure, a release or a due time.
pub const LAST_INSTANT: u32 = 100_000;
pub const LAST_ARRIVAL: u32 = 160_000;

pub const GAP: RangeInclusive<u32> = 1..=MOST_GAP;
pub const INSTANT: RangeInclusive<u32> = 0..=LAST_INSTANT;
pub const CAPACITY: RangeInclusive<u32> = 1..=MOST_CAPACITY;
pub const RUNNING: RangeInclusive<u32> = 1..=MOST_RUNNING;
pub const ARRIVAL: RangeInclusive<u32> = 1..=LAST_ARRIVAL;
pub const WEIGHT: RangeInclusive<u32> = 1..=MOST_WEIGHT;

/// Digits of a number in a text.
pub const DIGITS: RangeInclusive<usize> = 1..=6;
/// Bytes of an order's name.
pub const NAME_BYTES: RangeInclusive<usize> = 1..=12;
