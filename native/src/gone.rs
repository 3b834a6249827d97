//! The trains that have left when a sheet of the window form is planned anew, from document 02's request 13, and what they leave to the others.

use crate::checking::{arrivals_of, departures_fit, loads_fit, loads_in, ForeignPlan};
use crate::plan::{Plan, Times};
use crate::refusal::*;
use crate::sheet::{Orders, Paths, Sheet, Windows};

/// The minute at which a sheet is planned anew, and its first trains, which have left by then: one departure for each, and their orders. Any numbers may
/// stand here. None has left at minute 0 by default, as in ordinary planning.
#[derive(Clone, Debug, Default, PartialEq, Eq)]
pub struct Gone {
    pub minute: u32,
    pub trains: ForeignPlan,
}

/// What a search finds ahead of its first train; by default nothing.
#[derive(Clone, Copy, Debug, Default, PartialEq, Eq)]
pub struct Ahead {
    /// Its first train leaves no earlier than this.
    pub departure: u32,
    /// And arrives no earlier than this.
    pub arrival: u32,
    /// The worst lateness of the orders that have gone; none if no order has.
    pub worst: Option<i64>,
}

/// What is left to plan.
pub struct Left {
    /// The orders and the trains that have not gone, as a sheet of their own.
    pub sheet: Sheet,
    pub ahead: Ahead,
    /// Of each order of the whole sheet the train that it has gone with; 0 if it has not gone.
    gone_with: Vec<u8>,
    /// Of the gone trains.
    times: Vec<Times>,
}

impl Left {
    /// Of an admitted sheet; refused with 21 where the gone part is not one of its schedules up to the minute, or no train is left.
    pub fn of(sheet: &Sheet, gone: &Gone) -> Result<Left, Refusal> {
        let loads = gone_loads(sheet, gone).ok_or(Refusal::of_all(WRONG_GONE_PART))?;
        let (n, q) = sheet.size();
        let mut gone_with = vec![0; n];
        for (train, load) in (1..).zip(&loads) {
            load.iter().for_each(|&j| gone_with[j] = train);
        }
        let windows = windows_of(sheet);
        let times = gone_times(sheet, &gone.trains.departures);
        let trains = loads.len()..q;
        let rest = Sheet {
            capacity: sheet.capacity[trains.clone()].to_vec(),
            paths: Paths::Windows(Windows { running: windows.running[trains].to_vec(), ..windows.clone() }),
            orders: orders_left(&sheet.orders, &gone_with),
        };
        let worst =
            loads.iter().zip(&times).flat_map(|(load, train)| worst_of(&sheet.orders, load, train.arrival)).max();
        let last = times.last();
        let ahead = Ahead {
            departure: last.map_or(0, |train| train.departure + windows.gap).max(gone.minute),
            arrival: last.map_or(0, |train| train.arrival + windows.gap),
            worst,
        };
        Ok(Left { sheet: rest, ahead, gone_with, times })
    }

    /// A plan of what is left, told as a plan of the whole sheet.
    pub fn whole(&self, plan: &Plan) -> Plan {
        let gone = self.times.len() as u8;
        let mut later = plan.train_of_order.iter().map(|train| gone + train);
        let train = |&gone_with: &u8| if gone_with > 0 { gone_with } else { later.next().expect("an order left") };
        Plan {
            train_of_order: self.gone_with.iter().map(train).collect(),
            times: self.times.iter().chain(&plan.times).copied().collect(),
        }
    }
}

fn windows_of(sheet: &Sheet) -> &Windows {
    match &sheet.paths {
        Paths::Windows(windows) => windows,
        Paths::Timetable(_) => panic!("only sheets of the window form are planned anew"),
    }
}

/// Test 21: the orders on each gone train, by index; none where it fails.
fn gone_loads(sheet: &Sheet, Gone { minute, trains }: &Gone) -> Option<Vec<Vec<usize>>> {
    let ForeignPlan { departures, rows } = trains;
    let (n, q) = sheet.size();
    let (count, by_then) = (departures.len(), departures.iter().all(|departure| departure <= minute));
    if count >= q || !by_then || !departures_fit(&sheet.paths, departures) {
        return None;
    }
    loads_in(rows, n, count).filter(|loads| loads_fit(sheet, loads, departures))
}

/// The times of gone trains that have left in windows.
fn gone_times(sheet: &Sheet, departures: &[u32]) -> Vec<Times> {
    let windows = windows_of(sheet);
    let window = |departure: u32| windows.to.iter().take_while(|&&to| to < departure).count() as u32 + 1;
    let times = |(&departure, arrival)| Times { departure, arrival, window: window(departure) };
    departures.iter().zip(arrivals_of(&sheet.paths, departures)).map(times).collect()
}

fn worst_of(orders: &Orders, load: &[usize], arrival: u32) -> Option<i64> {
    load.iter().map(|&j| orders.lateness(j, arrival)).max()
}

/// The orders that have not gone, in their order.
fn orders_left(orders: &Orders, gone_with: &[u8]) -> Orders {
    let mut left = Orders::default();
    for j in (0..orders.len()).filter(|&j| gone_with[j] == 0) {
        left.push(orders.release[j], orders.due[j], orders.weight[j]);
    }
    left
}
