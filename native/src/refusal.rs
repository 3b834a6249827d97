//! The refusals of documents 01 and 02, by their numbers.

pub const MALFORMED: usize = 1;
pub const OUT_OF_RANGE: usize = 2;
pub const KIND_TOO_EARLY: usize = 3;
pub const TOO_MANY: usize = 4;
pub const KIND_MISSING: usize = 5;
pub const OUT_OF_ORDER: usize = 6;
pub const TOO_FEW_PLACES: usize = 7;
pub const NO_SCHEDULE: usize = 8;
// 9 is not used.
pub const AREA_TOO_SHORT: usize = 10;
pub const WISH_TOO_EARLY: usize = 11;
pub const WRONG_ROWS: usize = 12;
pub const RULE_BROKEN: usize = 13;
// 14 to 20 are not used yet.
pub const WRONG_GONE_PART: usize = 21;

/// One more than the greatest number; 0 stands for "not refused".
pub const NUMBER_COUNT: usize = 22;

#[derive(Clone, Copy, Debug, PartialEq, Eq)]
pub struct Refusal {
    pub number: usize,
    /// The line, from 1, for which a text is refused; else 0.
    pub returned: usize,
}

impl Refusal {
    /// Of a text, for one of its lines.
    pub fn of_line(number: usize, line: usize) -> Refusal {
        Refusal { number, returned: line }
    }

    /// Of a whole text, or of a sheet in memory.
    pub fn of_all(number: usize) -> Refusal {
        Refusal { number, returned: 0 }
    }
}
