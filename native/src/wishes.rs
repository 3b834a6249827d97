//! Wished arrivals at and around the listed ones.

use crate::plan::Pair;

/// A minute before, at and a minute behind each listed arrival; the least wish and the greatest.
pub fn wishes(pairs: &[Pair]) -> Vec<u32> {
    let around = pairs.iter().flat_map(|&Pair { arrival, .. }| arrival.saturating_sub(1)..=arrival.saturating_add(1));
    let mut wishes: Vec<u32> = around.chain([0, u32::MAX]).collect();
    wishes.sort_unstable();
    wishes.dedup();
    wishes
}
