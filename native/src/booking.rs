//! Whether the windows are told by which signallers book the departures.

use crate::plan::Times;
use crate::sheet::{Paths, Sheet, Windows};

/// Each train's window is the one that contains its departure, and no other does; in the timetable form it is 0.
pub fn is_booked(sheet: &Sheet, times: &[Times]) -> bool {
    times.iter().all(|train| match &sheet.paths {
        Paths::Windows(windows) => windows_at(windows, train.departure) == [train.window],
        Paths::Timetable(_) => train.window == 0,
    })
}

/// Every window, from 1, that contains an instant, both ends included.
fn windows_at(windows: &Windows, instant: u32) -> Vec<u32> {
    let numbered = (1..).zip(windows.from.iter().zip(&windows.to));
    numbered.filter(|(_, (from, to))| (*from..=*to).contains(&&instant)).map(|(number, _)| number).collect()
}
