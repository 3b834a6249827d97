//! Sizes of drawn sheets.

use native::draw::{big, drawn_size, small};
use native::rng::Rng;
use native::sheet::{Form, Sheet};
use std::fmt;

#[derive(Clone, Copy)]
pub enum Size {
    /// Of up to so many orders, with small numbers.
    UpTo(u32),
    /// Of any numbers of orders and trains, with numbers anywhere in their ranges.
    Any,
}

impl Size {
    pub fn draw(self, rng: &mut Rng, form: Form) -> Sheet {
        match self {
            Size::UpTo(most_orders) => small(rng, form, most_orders),
            Size::Any => {
                let (n, q) = drawn_size(rng);
                big(rng, form, n, q)
            }
        }
    }
}

impl fmt::Display for Size {
    fn fmt(&self, f: &mut fmt::Formatter) -> fmt::Result {
        match self {
            Size::UpTo(most_orders) => write!(f, "up to {most_orders} orders"),
            Size::Any => write!(f, "any size"),
        }
    }
}
