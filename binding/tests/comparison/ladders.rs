//! Ladders, which make many rounds, of both forms.

use native::ladder::{ladder_timetable, ladder_windows, short_ladder_timetable, short_ladder_windows, Ladder};
use native::limits::MOST_CAPACITY;
use native::rng::Rng;
use native::sheet::Sheet;

/// Full ones, and ones with places to spare; of those of the window form, departures stay on one and move on the other.
pub fn ladders(rng: &mut Rng, n: u32, q: usize, ladder: Ladder) -> [Sheet; 6] {
    let stays = ladder.release;
    let [first, second, third] = [(); 3].map(|()| drawn_capacities(rng, n, q));
    [
        ladder_windows(rng, n, q, ladder, stays),
        ladder_windows(rng, n, q, ladder, 0),
        ladder_timetable(rng, n, q, ladder),
        short_ladder_windows(rng, n, first, ladder, stays),
        short_ladder_windows(rng, n, second, ladder, 0),
        short_ladder_timetable(rng, n, third, ladder),
    ]
}

/// More places than orders.
fn drawn_capacities(rng: &mut Rng, n: u32, q: usize) -> Vec<u32> {
    (0..q).map(|_| rng.within(n / q as u32 + 1, MOST_CAPACITY)).collect()
}
