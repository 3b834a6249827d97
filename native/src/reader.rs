//! The reader: from text to sheet or refusal.

use crate::limits::*;
use crate::line::{Kind, Line};
use crate::refusal::*;
use crate::sheet::{Form, Orders, Paths, Sheet, Timetable, Windows};
use std::ops::Range;

/// A sheet with the place of each order's name in the text.
#[derive(Clone, Debug, PartialEq, Eq)]
pub struct Reading {
    pub sheet: Sheet,
    pub names: Vec<Range<usize>>,
}

/// The letter and the comma in front of a name.
const BEFORE_NAME: usize = 2;

/// Everything read so far, of either form.
#[derive(Default)]
struct Draft {
    gaps: usize,
    capacity: Vec<u32>,
    windows: Windows,
    timetable: Timetable,
    orders: Orders,
    names: Vec<Range<usize>>,
}

impl Draft {
    /// How many lines of a kind there are, and how many there may be.
    fn count(&self, kind: Kind) -> (usize, usize) {
        match kind {
            Kind::Gap => (self.gaps, 1),
            Kind::Window => (self.windows.to.len(), MOST_WINDOWS),
            Kind::Train => (self.capacity.len(), MOST_TRAINS),
            Kind::Order => (self.orders.len(), MOST_ORDERS),
        }
    }

    /// Test 6, against the last window or fixed train above.
    fn in_order(&self, line: &Line) -> bool {
        let above = |column: &[u32], value: &u32| column.last().is_none_or(|last| last < value);
        match line {
            Line::Window { from, to } => from <= to && above(&self.windows.to, from),
            Line::FixedTrain { departure, arrival, .. } => {
                departure < arrival
                    && above(&self.timetable.departure, departure)
                    && above(&self.timetable.arrival, arrival)
            }
            _ => true,
        }
    }

    /// Tests 3, 4, 2 and 6: the number of the first that fails.
    fn fault(&self, line: &Line, kind_above: Kind) -> Option<usize> {
        let (count, most) = self.count(line.kind());
        if line.kind() < kind_above {
            Some(KIND_TOO_EARLY)
        } else if count == most {
            Some(TOO_MANY)
        } else if !line.in_range() {
            Some(OUT_OF_RANGE)
        } else if !self.in_order(line) {
            Some(OUT_OF_ORDER)
        } else {
            None
        }
    }

    /// `start` is where the line begins in the text.
    fn keep(&mut self, line: &Line, start: usize) {
        match *line {
            Line::Gap { gap } => {
                self.gaps += 1;
                self.windows.gap = gap;
            }
            Line::Window { from, to } => {
                self.windows.from.push(from);
                self.windows.to.push(to);
            }
            Line::Train { capacity, running } => {
                self.capacity.push(capacity);
                self.windows.running.push(running);
            }
            Line::FixedTrain { capacity, departure, arrival } => {
                self.capacity.push(capacity);
                self.timetable.departure.push(departure);
                self.timetable.arrival.push(arrival);
            }
            Line::Order { name, release, due, weight } => {
                let at = start + BEFORE_NAME;
                self.names.push(at..at + name.len());
                self.orders.push(release, due, weight);
            }
        }
    }

    /// Tests 5 and 7, of the whole text.
    fn finish(self, form: Form) -> Result<Reading, Refusal> {
        let kinds: &[Kind] = match form {
            Form::Windows => &[Kind::Gap, Kind::Window, Kind::Train, Kind::Order],
            Form::Timetable => &[Kind::Train, Kind::Order],
        };
        if kinds.iter().any(|&kind| self.count(kind).0 == 0) {
            return Err(Refusal::of_all(KIND_MISSING));
        }
        if (self.capacity.iter().sum::<u32>() as usize) < self.orders.len() {
            return Err(Refusal::of_all(TOO_FEW_PLACES));
        }
        let paths = match form {
            Form::Windows => Paths::Windows(self.windows),
            Form::Timetable => Paths::Timetable(self.timetable),
        };
        Ok(Reading { sheet: Sheet { capacity: self.capacity, paths, orders: self.orders }, names: self.names })
    }
}

pub fn read(text: &[u8], form: Form) -> Result<Reading, Refusal> {
    let mut draft = Draft::default();
    let mut kind_above = Kind::Gap;
    let mut start = 0;
    for (above, whole) in text.split_inclusive(|&byte| byte == b'\n').enumerate() {
        let refuse = |number| Refusal::of_line(number, above + 1);
        let line = whole.strip_suffix(b"\n").and_then(|line| Line::parse(line, form)).ok_or(refuse(MALFORMED))?;
        if let Some(number) = draft.fault(&line, kind_above) {
            return Err(refuse(number));
        }
        draft.keep(&line, start);
        kind_above = line.kind();
        start += whole.len();
    }
    draft.finish(form)
}

/// The part of the text that names an order (from 1); empty if there is none.
pub fn order_name(text: &[u8], form: Form, order: usize) -> &[u8] {
    let names = read(text, form).map_or(Vec::new(), |reading| reading.names);
    let place = order.checked_sub(1).and_then(|index| names.get(index));
    place.map_or(b"", |place| &text[place.clone()])
}
