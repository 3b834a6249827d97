//! Lengths of a pairs area: around the figure, and up to a pair for each order and train.

use binding::areas::PairsArea;
use native::rng::Rng;
use native::sheet::Sheet;

/// Longer than needed: by a few elements, or by many, up to what n x q pairs take.
pub fn longer(sheet: &Sheet, rng: &mut Rng) -> usize {
    let (n, q) = sheet.size();
    let least = PairsArea::least(sheet);
    let many = PairsArea::length_of(n * q).saturating_sub(least);
    least + 1 + if rng.one_in(2) { rng.index(3) } else { rng.index(many.max(1)) }
}

/// Too short: by one element, and by more.
pub fn too_short(sheet: &Sheet, rng: &mut Rng) -> [usize; 2] {
    let least = PairsArea::least(sheet);
    [least - 1, rng.index(least)]
}
