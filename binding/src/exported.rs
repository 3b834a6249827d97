//! Sheets as the exported calls take and give them, from and to the independent implementation's sheets.

use crate::areas::{CheckAreas, PairsArea, PlanAreas, ReadAreas, SearchAreas};
use crate::calls::{bound_timetable, bound_windows, check_timetable, check_windows, choose_timetable, choose_windows};
use crate::calls::{list_timetable, list_windows, rechoose_windows, relist_windows};
use crate::calls::{round_timetable, round_windows, start_timetable, start_windows};
use crate::calls::{Bound, Check, Choice, Listing, Round, Start, State, TimetableSheet, WindowSheet, WindowsAt};
use native::sheet::{Orders, Paths, Sheet, Timetable, Windows};

/// Stands behind the elements of a column, where it is not read. No sheet may have it.
const GUARD: u32 = u32::MAX;

/// A sheet for the exported calls.
pub enum ExportedSheet {
    Windows(Box<WindowSheet>),
    Timetable(Box<TimetableSheet>),
}

impl ExportedSheet {
    pub fn bound(&self) -> Bound {
        match self {
            ExportedSheet::Windows(sheet) => bound_windows(sheet),
            ExportedSheet::Timetable(sheet) => bound_timetable(sheet),
        }
    }

    pub fn list_in(&self, pairs: &mut PairsArea) -> Listing {
        match self {
            ExportedSheet::Windows(sheet) => list_windows(sheet, pairs.lent()),
            ExportedSheet::Timetable(sheet) => list_timetable(sheet, pairs.lent()),
        }
    }

    pub fn choose_in(&self, wish: u32, areas: &mut PlanAreas) -> Choice {
        let (train_of_order, times) = (areas.train_of_order.lent(), areas.times.lent());
        match self {
            ExportedSheet::Windows(sheet) => choose_windows(sheet, wish, train_of_order, times),
            ExportedSheet::Timetable(sheet) => choose_timetable(sheet, wish, train_of_order, times),
        }
    }

    pub fn check_in(&self, areas: &mut CheckAreas) -> Check {
        let CheckAreas { plan, pairs } = areas;
        let (departures, rows, pairs) = (plan.departures.lent(), plan.rows.lent(), pairs.lent());
        match self {
            ExportedSheet::Windows(sheet) => check_windows(sheet, departures, rows, pairs),
            ExportedSheet::Timetable(sheet) => check_timetable(sheet, departures, rows, pairs),
        }
    }

    /// Lists anew behind the trains that have gone by a minute; only sheets of the window form are planned anew.
    pub fn relist_in(&self, minute: u32, gone: &mut ReadAreas, pairs: &mut PairsArea) -> Listing {
        relist_windows(&self.at(minute), gone.departures.lent(), gone.rows.lent(), pairs.lent())
    }

    /// The same of choosing.
    pub fn rechoose_in(&self, minute: u32, wish: u32, gone: &mut ReadAreas, areas: &mut PlanAreas) -> Choice {
        let (train_of_order, times) = (areas.train_of_order.lent(), areas.times.lent());
        let (departures, rows) = (gone.departures.lent(), gone.rows.lent());
        rechoose_windows(&self.at(minute), wish, departures, rows, train_of_order, times)
    }

    fn at(&self, minute: u32) -> WindowsAt {
        match self {
            ExportedSheet::Windows(sheet) => WindowsAt { sheet: **sheet, minute },
            ExportedSheet::Timetable(_) => panic!("only sheets of the window form are planned anew"),
        }
    }

    pub fn start_in(&self, areas: &mut SearchAreas) -> Start {
        let SearchAreas { pairs, plan } = areas;
        let (pairs, train_of_order, times) = (pairs.lent(), plan.train_of_order.lent(), plan.times.lent());
        match self {
            ExportedSheet::Windows(sheet) => start_windows(sheet, pairs, train_of_order, times),
            ExportedSheet::Timetable(sheet) => start_timetable(sheet, pairs, train_of_order, times),
        }
    }

    pub fn round_in(&self, state: &State, areas: &mut SearchAreas) -> Round {
        let SearchAreas { pairs, plan } = areas;
        let (pairs, train_of_order, times) = (pairs.lent(), plan.train_of_order.lent(), plan.times.lent());
        match self {
            ExportedSheet::Windows(sheet) => round_windows(state, sheet, pairs, train_of_order, times),
            ExportedSheet::Timetable(sheet) => round_timetable(state, sheet, pairs, train_of_order, times),
        }
    }
}

impl From<&Sheet> for ExportedSheet {
    fn from(sheet: &Sheet) -> ExportedSheet {
        match &sheet.paths {
            Paths::Windows(windows) => ExportedSheet::Windows(Box::new(exported_windows(sheet, windows))),
            Paths::Timetable(timetable) => ExportedSheet::Timetable(Box::new(exported_timetable(sheet, timetable))),
        }
    }
}

/// A column with guards behind its elements. Elements past the greatest count are left out: such a sheet is refused by its count.
fn column<const MOST: usize>(elements: &[u32]) -> [u32; MOST] {
    let mut column = [GUARD; MOST];
    let count = elements.len().min(MOST);
    column[..count].copy_from_slice(&elements[..count]);
    column
}

fn exported_windows(Sheet { capacity, orders, .. }: &Sheet, windows: &Windows) -> WindowSheet {
    WindowSheet {
        gap: windows.gap,
        window_count: windows.from.len(),
        window_from: column(&windows.from),
        window_to: column(&windows.to),
        train_count: capacity.len(),
        capacity: column(capacity),
        running: column(&windows.running),
        order_count: orders.len(),
        release: column(&orders.release),
        due: column(&orders.due),
        weight: column(&orders.weight),
    }
}

fn exported_timetable(Sheet { capacity, orders, .. }: &Sheet, timetable: &Timetable) -> TimetableSheet {
    TimetableSheet {
        train_count: capacity.len(),
        capacity: column(capacity),
        departure: column(&timetable.departure),
        arrival: column(&timetable.arrival),
        order_count: orders.len(),
        release: column(&orders.release),
        due: column(&orders.due),
        weight: column(&orders.weight),
    }
}

impl From<&WindowSheet> for Sheet {
    fn from(sheet: &WindowSheet) -> Sheet {
        let WindowSheet { window_count, train_count, order_count, .. } = *sheet;
        let windows = Windows {
            gap: sheet.gap,
            from: sheet.window_from[..window_count].to_vec(),
            to: sheet.window_to[..window_count].to_vec(),
            running: sheet.running[..train_count].to_vec(),
        };
        Sheet {
            capacity: sheet.capacity[..train_count].to_vec(),
            paths: Paths::Windows(windows),
            orders: orders_from(order_count, &sheet.release, &sheet.due, &sheet.weight),
        }
    }
}

impl From<&TimetableSheet> for Sheet {
    fn from(sheet: &TimetableSheet) -> Sheet {
        let TimetableSheet { train_count, order_count, .. } = *sheet;
        let timetable = Timetable {
            departure: sheet.departure[..train_count].to_vec(),
            arrival: sheet.arrival[..train_count].to_vec(),
        };
        Sheet {
            capacity: sheet.capacity[..train_count].to_vec(),
            paths: Paths::Timetable(timetable),
            orders: orders_from(order_count, &sheet.release, &sheet.due, &sheet.weight),
        }
    }
}

fn orders_from(count: usize, release: &[u32], due: &[u32], weight: &[u32]) -> Orders {
    Orders { release: release[..count].to_vec(), due: due[..count].to_vec(), weight: weight[..count].to_vec() }
}
