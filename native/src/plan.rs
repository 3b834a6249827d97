//! What listing and choosing give.

/// Last arrival and worst weighted lateness.
#[derive(Clone, Copy, Debug, Default, PartialEq, Eq)]
pub struct Pair {
    pub arrival: u32,
    pub lateness: i64,
}

/// One train's times.
#[derive(Clone, Copy, Debug, Default, PartialEq, Eq)]
pub struct Times {
    pub departure: u32,
    pub arrival: u32,
    /// The window, from 1, that contains the departure; 0 in the timetable form.
    pub window: u32,
}

/// A train takes so many numbers of the area of times.
pub const NUMBERS_A_TRAIN: usize = 3;

/// What the area of times holds of these trains.
pub fn time_numbers(times: &[Times]) -> Vec<u32> {
    times.iter().flat_map(|train| [train.departure, train.arrival, train.window]).collect()
}

/// The trains of which an area of times holds these numbers.
pub fn times_in(numbers: &[u32]) -> Vec<Times> {
    let train = |&[departure, arrival, window]: &[u32; NUMBERS_A_TRAIN]| Times { departure, arrival, window };
    numbers.as_chunks().0.iter().map(train).collect()
}

#[derive(Clone, Debug, PartialEq, Eq)]
pub struct Plan {
    /// The train, from 1, of each order.
    pub train_of_order: Vec<u8>,
    pub times: Vec<Times>,
}

impl Plan {
    /// The trains, from 1, that carry no order.
    pub fn empty_trains(&self) -> Vec<usize> {
        (1..=self.times.len()).filter(|&i| !self.train_of_order.contains(&(i as u8))).collect()
    }
}

/// A pair with its plan.
#[derive(Clone, Debug, PartialEq, Eq)]
pub struct Entry {
    pub pair: Pair,
    pub plan: Plan,
}

/// Every listed pair by rising arrival, and how many rounds were made.
#[derive(Clone, Debug, PartialEq, Eq)]
pub struct Listing {
    pub pairs: Vec<Pair>,
    pub rounds: usize,
}
