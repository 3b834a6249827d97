//! One line of a sheet's text: its form, and the tests of it alone.

use crate::limits::*;
use crate::sheet::Form;

pub enum Line<'a> {
    Gap { gap: u32 },
    Window { from: u32, to: u32 },
    Train { capacity: u32, running: u32 },
    FixedTrain { capacity: u32, departure: u32, arrival: u32 },
    Order { name: &'a [u8], release: u32, due: u32, weight: u32 },
}

/// The kinds of line, in the order in which they stand on a sheet.
#[derive(Clone, Copy, PartialEq, Eq, PartialOrd, Ord)]
pub enum Kind {
    Gap,
    Window,
    Train,
    Order,
}

/// The most fields that a line has, its letter included.
const MOST_FIELDS: usize = 5;

/// A number without leading zero, except 0 itself.
fn decimal(field: &[u8]) -> Option<u32> {
    let well_formed =
        DIGITS.contains(&field.len()) && field.iter().all(u8::is_ascii_digit) && (field.len() == 1 || field[0] != b'0');
    well_formed.then(|| field.iter().fold(0, |value, digit| value * 10 + u32::from(digit - b'0')))
}

fn is_name(field: &[u8]) -> bool {
    let allowed = |&byte: &u8| byte.is_ascii_uppercase() || byte.is_ascii_digit() || byte == b'-';
    NAME_BYTES.contains(&field.len()) && field.iter().all(allowed)
}

impl<'a> Line<'a> {
    /// Test 1 for a line without its final byte 10.
    pub fn parse(line: &'a [u8], form: Form) -> Option<Line<'a>> {
        let mut field: [&[u8]; MOST_FIELDS] = [b""; MOST_FIELDS];
        let mut count = 0;
        for part in line.split(|&byte| byte == b',') {
            *field.get_mut(count)? = part;
            count += 1;
        }
        let value = |at: usize| decimal(field[at]);
        match (form, field[0], count) {
            (Form::Windows, b"G", 2) => Some(Line::Gap { gap: value(1)? }),
            (Form::Windows, b"W", 3) => Some(Line::Window { from: value(1)?, to: value(2)? }),
            (Form::Windows, b"T", 3) => Some(Line::Train { capacity: value(1)?, running: value(2)? }),
            (Form::Timetable, b"X", 4) => {
                Some(Line::FixedTrain { capacity: value(1)?, departure: value(2)?, arrival: value(3)? })
            }
            (_, b"O", 5) if is_name(field[1]) => {
                Some(Line::Order { name: field[1], release: value(2)?, due: value(3)?, weight: value(4)? })
            }
            _ => None,
        }
    }

    pub fn kind(&self) -> Kind {
        match self {
            Line::Gap { .. } => Kind::Gap,
            Line::Window { .. } => Kind::Window,
            Line::Train { .. } | Line::FixedTrain { .. } => Kind::Train,
            Line::Order { .. } => Kind::Order,
        }
    }

    /// Test 2.
    pub fn in_range(&self) -> bool {
        match self {
            Line::Gap { gap } => GAP.contains(gap),
            Line::Window { from, to } => INSTANT.contains(from) && INSTANT.contains(to),
            Line::Train { capacity, running } => CAPACITY.contains(capacity) && RUNNING.contains(running),
            Line::FixedTrain { capacity, departure, arrival } => {
                CAPACITY.contains(capacity) && INSTANT.contains(departure) && ARRIVAL.contains(arrival)
            }
            Line::Order { release, due, weight, .. } => {
                INSTANT.contains(release) && INSTANT.contains(due) && WEIGHT.contains(weight)
            }
        }
    }
}
