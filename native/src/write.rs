//! A sheet's text.

use crate::limits::NAME_BYTES;
use crate::rng::Rng;
use crate::sheet::{Orders, Paths, Sheet};

/// Names by `name`, which gets the order's number.
pub fn text_of(sheet: &Sheet, name: &mut dyn FnMut(usize) -> String) -> String {
    let mut text = String::new();
    match &sheet.paths {
        Paths::Windows(windows) => {
            text += &format!("G,{}\n", windows.gap);
            for (from, to) in windows.from.iter().zip(&windows.to) {
                text += &format!("W,{from},{to}\n");
            }
            for (capacity, running) in sheet.capacity.iter().zip(&windows.running) {
                text += &format!("T,{capacity},{running}\n");
            }
        }
        Paths::Timetable(timetable) => {
            for (i, capacity) in sheet.capacity.iter().enumerate() {
                text += &format!("X,{capacity},{},{}\n", timetable.departure[i], timetable.arrival[i]);
            }
        }
    }
    text + &orders_text(&sheet.orders, name)
}

fn orders_text(orders: &Orders, name: &mut dyn FnMut(usize) -> String) -> String {
    let line = |j: usize| format!("O,{},{},{},{}\n", name(j + 1), orders.release[j], orders.due[j], orders.weight[j]);
    (0..orders.len()).map(line).collect()
}

/// The name N and the order's number.
pub fn numbered_name(order: usize) -> String {
    format!("N{order}")
}

pub fn drawn_name(rng: &mut Rng) -> String {
    let letters: Vec<char> = ('A'..='Z').chain('0'..='9').chain(['-']).collect();
    let length = rng.within(*NAME_BYTES.start() as u32, *NAME_BYTES.end() as u32);
    (0..length).map(|_| rng.pick(&letters)).collect()
}
