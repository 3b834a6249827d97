//! Each field just outside its range, at both ends of it, and the greatest counts.

use crate::parts::{order_lines, train_lines};
use crate::store::Store;
use native::cases::with;
use native::limits::*;
use native::sheet::{Orders, Paths, Sheet, Timetable, Windows};
use native::write::text_of;

/// The least text of each form.
const LEAST_WINDOWS: &str = "G,1\nW,0,0\nT,1,1\nO,A,0,0,1\n";
const LEAST_TIMETABLE: &str = "X,1,0,1\nO,A,0,0,1\n";

pub fn store_all(store: &mut Store) {
    store.group(300);
    outside(store);
    at_the_ends(store);
    most_places(store);
    long_texts(store);
}

fn outside(store: &mut Store) {
    for (name, old, new, line) in [
        ("gap-0", "G,1", "G,0", 1),
        ("gap-1441", "G,1", "G,1441", 1),
        ("window-from-100001", "W,0,0", "W,100001,100001", 2),
        ("window-to-100001", "W,0,0", "W,0,100001", 2),
        ("capacity-0", "T,1,1", "T,0,1", 3),
        ("capacity-65", "T,1,1", "T,65,1", 3),
        ("running-0", "T,1,1", "T,1,0", 3),
        ("running-10001", "T,1,1", "T,1,10001", 3),
        ("release-100001", "A,0,0,1", "A,100001,0,1", 4),
        ("due-100001", "A,0,0,1", "A,0,100001,1", 4),
        ("weight-0", "A,0,0,1", "A,0,0,0", 4),
        ("weight-1001", "A,0,0,1", "A,0,0,1001", 4),
    ] {
        store.refused(&format!("w2-{name}"), with(LEAST_WINDOWS, old, new), &format!("E,2,{line}"));
    }
    for (name, old, new, line) in [
        ("capacity-0", "X,1,0,1", "X,0,0,1", 1),
        ("capacity-65", "X,1,0,1", "X,65,0,1", 1),
        ("departure-100001", "X,1,0,1", "X,1,100001,100002", 1),
        ("arrival-0", "X,1,0,1", "X,1,0,0", 1),
        ("arrival-160001", "X,1,0,1", "X,1,0,160001", 1),
        ("release-100001", "A,0,0,1", "A,100001,0,1", 2),
        ("due-100001", "A,0,0,1", "A,0,100001,1", 2),
        ("weight-1001", "A,0,0,1", "A,0,0,1001", 2),
    ] {
        store.refused(&format!("x2-{name}"), with(LEAST_TIMETABLE, old, new), &format!("E,2,{line}"));
    }
}

fn at_the_ends(store: &mut Store) {
    store.planned("greatest-values-window", "G,1440\nW,100000,100000\nT,1,10000\nO,ABCDEFGHIJKL,100000,100000,1000\n");
    store.planned("greatest-lateness-window", "G,1440\nW,100000,100000\nT,1,10000\nO,A,0,0,1000\n");
    store.planned("least-lateness-window", "G,1\nW,0,0\nT,1,1\nO,A,0,100000,1000\n");
    store.planned("greatest-lateness-timetable", "X,1,100000,160000\nO,A,100000,0,1000\n");
    store.planned("least-lateness-timetable", "X,1,0,1\nO,A,0,100000,1000\n");
    store.planned(
        "latest-arrival-behind-a-slow-train",
        "G,1440\nW,98560,98560\nW,100000,100000\nT,1,10000\nT,1,1\nO,A,0,0,1\nO,B,0,0,2\n",
    );
}

fn most_places(store: &mut Store) {
    store.planned("one-train-of-64", &format!("G,1\nW,0,9\nT,64,1\n{}", order_lines(64)));
    store.planned("trains-of-64-64-64-8", &format!("G,9\nW,0,99\nT,64,1\nT,64,2\nT,64,3\nT,8,4\n{}", order_lines(200)));
    let windows: String = (0..64).map(|i| format!("W,{i},{i}\n")).collect();
    store.planned("64-windows-of-one-minute", &format!("G,2\n{windows}{}{}", train_lines(32), order_lines(32)));
    store.planned("one-train-of-64-timetable", &format!("X,64,0,1\n{}", order_lines(64)));
}

fn long_texts(store: &mut Store) {
    let (mut windows, mut timetable) = (long_windows(), long_timetable());
    store.planned_sheet("long-window-sheet-with-a-plan", &windows);
    store.planned_sheet("long-timetable-sheet-with-a-plan", &timetable);
    // All releases at the last instant: no legal text is longer, but only one train could leave.
    windows.orders.release.fill(LAST_INSTANT);
    let text = text_of(&windows, &mut |order| format!("LONG-NAME{order:03}"));
    assert_eq!(text.len(), 8_043);
    store.refused("longest-legal-window-sheet", text, "E,8,0");
    timetable.orders.release.fill(LAST_INSTANT);
    let text = text_of(&timetable, &mut |order| format!("{order:03}LONG-NAME"));
    assert_eq!(text.len(), 7_363);
    store.refused("longest-legal-timetable-sheet", text, "E,8,0");
}

/// The most trains with the most orders; the last train has two.
fn long_capacity() -> Vec<u32> {
    [vec![10; 18], vec![1; 8], vec![2; 6]].concat()
}

/// The two orders of the last train wait for the last instant; the others can leave before.
fn long_orders(release: impl Fn(u32) -> u32) -> Orders {
    let mut orders = Orders::default();
    for j in 0..MOST_ORDERS as u32 {
        let waits = j + 2 >= MOST_ORDERS as u32;
        orders.push(if waits { LAST_INSTANT } else { release(j) }, LAST_INSTANT, MOST_WEIGHT);
    }
    orders
}

/// Every field but most releases as long as the others allow.
fn long_windows() -> Sheet {
    let mut windows =
        Windows { gap: MOST_GAP, running: vec![MOST_RUNNING; MOST_TRAINS], from: Vec::new(), to: Vec::new() };
    for i in 0..MOST_WINDOWS as u32 - 1 {
        windows.from.push(10_000 + 1_428 * i);
        windows.to.push(11_427 + 1_428 * i);
    }
    windows.from.push(LAST_INSTANT);
    windows.to.push(LAST_INSTANT);
    let orders = long_orders(|j| 10_000 + 450 * (j / 10));
    Sheet { capacity: long_capacity(), paths: Paths::Windows(windows), orders }
}

fn long_timetable() -> Sheet {
    let mut timetable = Timetable::default();
    for behind in (0..MOST_TRAINS as u32).rev() {
        timetable.departure.push(LAST_INSTANT - 1_000 * behind);
        timetable.arrival.push(LAST_ARRIVAL - 1_000 * behind);
    }
    let orders = long_orders(|j| 60_000 + 45 * (j % 190));
    Sheet { capacity: long_capacity(), paths: Paths::Timetable(timetable), orders }
}
