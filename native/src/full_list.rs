//! Sheets of the window form whose list is filled to the figure: every round lists a further pair.

use crate::limits::LAST_INSTANT;
use crate::rng::Rng;
use crate::sheet::{Orders, Paths, Sheet, Windows};

/// The first due time.
const FIRST_DUE: u32 = 1_000;

/// `n` orders, and trains of so many places each: full, or with places to spare. Some sizes ask for a running time beyond the greatest.
///
/// The orders stand in blocks, each as large as a train but the last, which may be smaller. The first block is released last, so the last train is loaded
/// with it, and each train ahead with the next block. Then, round by round, one order may no longer ride the last train in use: those of the first block
/// in turn, those of the second and so on; and then those of the first may no longer ride the train ahead. Each lands on a train where none is released
/// as late, so the trains behind leave later than in the round before. In the end the first block rides train 1, the second train 2 and so on.
pub fn full_list(rng: &mut Rng, n: u32, places: u32, trains: u32) -> Sheet {
    let (blocks, gap) = (block_sizes(n, places), n);
    assert!(blocks.len() <= trains as usize, "every order has a place");
    let Times { running, due } = Times::of(&blocks, trains as usize, gap);
    // No empty train ahead holds up the first one that carries an order.
    let mut release = gap * (trains - 1);
    let mut rows = Vec::new();
    for block in due.iter().rev() {
        rows.extend((release..).zip(block));
        release += gap - places.min(gap);
    }
    (1..rows.len()).rev().for_each(|at| rows.swap(at, rng.index(at + 1)));
    let weight = rng.within(1, 9);
    let mut orders = Orders::default();
    rows.into_iter().for_each(|(release, &due)| orders.push(release, due, weight));
    let paths = Paths::Windows(Windows { gap, from: vec![0], to: vec![LAST_INSTANT], running });
    Sheet { capacity: vec![places; trains as usize], paths, orders }
}

/// From the first block on.
fn block_sizes(n: u32, places: u32) -> Vec<u32> {
    (0..n.div_ceil(places)).map(|block| places.min(n - block * places)).collect()
}

/// The running time of each train, and the due times of each block.
struct Times {
    running: Vec<u32>,
    due: Vec<Vec<u32>>,
}

impl Times {
    /// Due times are two minutes apart, since a round moves departures by one. Where these are a gap apart, each train arrives so far behind the train ahead
    /// that all orders which are to leave it do so before one of them is to leave the train ahead. A block that has come to its train stays there: beyond
    /// the first block it is due as much later as its train arrives behind train 2.
    fn of(blocks: &[u32], trains: usize, gap: u32) -> Times {
        let due_from = |first: u32, size: u32| (0..size).map(|turn| first + 2 * turn).collect::<Vec<u32>>();
        // When few blocks move any more, the first order to move holds up the trains behind by so many minutes more.
        let more = gap.saturating_sub(2 * blocks[0]);
        let (mut running, mut due) = (vec![1], vec![due_from(FIRST_DUE + more, blocks[0])]);
        due[0][0] = FIRST_DUE;
        let mut next_due = FIRST_DUE + more + 2 * blocks[0];
        let mut last_due = next_due;
        for train in 2..=trains {
            let behind = gap.max(last_due - FIRST_DUE);
            running.push(running[train - 2] + behind - gap);
            next_due += if train > 2 { behind } else { 0 };
            if let Some(&size) = blocks.get(train - 1) {
                due.push(due_from(next_due, size));
                last_due = next_due + 2 * size;
            }
        }
        Times { running, due }
    }
}
