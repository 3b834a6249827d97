//! Refused texts of the timetable form, and some that were refused while every train had to be full.

use crate::parts::{fixed_train_lines, order_lines};
use crate::store::Store;
use native::cases::{with, CASE_H};

pub fn store_all(store: &mut Store) {
    store.group(200);
    one_fault(store);
    two_faults_on_a_line(store);
    two_faulty_lines(store);
}

fn h(old: &str, new: &str) -> String {
    with(CASE_H, old, new)
}

fn one_fault(store: &mut Store) {
    store.refused("x1-no-final-byte-10", &CASE_H[..CASE_H.len() - 1], "E,1,5");
    store.refused("x1-train-line", h("X,2,95,120\n", "T,2,20\n"), "E,1,2");
    store.refused("x1-only-the-letter", "X", "E,1,1");
    store.refused("x1-field-too-many", h("X,2,95,120", "X,2,95,120,5"), "E,1,2");
    store.refused("x1-name-13-bytes", h("O,C,", "O,0-0-0-0-0-0-0,"), "E,1,5");
    store.refused("x3-path-after-order", format!("{CASE_H}X,1,200,300\n"), "E,3,6");
    store.refused("x4-path-33", format!("{}{}", fixed_train_lines(33), order_lines(33)), "E,4,33");
    store.refused("x4-order-201", format!("{}{}", fixed_train_lines(1), order_lines(201)), "E,4,202");
    store.refused("x5-no-order", fixed_train_lines(3), "E,5,0");
    store.refused("x6-departure-equals-arrival", h("X,1,50,80", "X,1,80,80"), "E,6,1");
    store.refused("x6-departures-equal", h("X,2,95,120", "X,2,50,120"), "E,6,2");
    store.refused("x6-arrivals-equal", h("X,2,95,120", "X,2,79,80").replace("X,1,50", "X,1,5"), "E,6,2");
    store.refused("x6-arrivals-fall", h("X,2,95,120", "X,2,60,79"), "E,6,2");
    store.refused("x7-one-place-too-few", h("X,2,95", "X,1,95"), "E,7,0");
    store.planned("x-one-place-to-spare", &h("X,2,95", "X,3,95"));
    store.refused("x8-release-behind-last-departure", h("C,90", "C,96"), "E,8,0");
    store.refused("x8-all-too-early-for-train-1", h("X,1,50,80", "X,1,10,80").replace("A,0,60", "A,11,60"), "E,8,0");
}

/// The tests of a line come in the order 1, 3, 4, 2, 6.
fn two_faults_on_a_line(store: &mut Store) {
    let full = fixed_train_lines(32);
    store.refused("x-line-1-before-3", "X,1,1,2\nO,A,0,0,1\nX,1,3,4", "E,1,3");
    store.refused("x-line-1-before-4", format!("{full}X,1,330"), "E,1,33");
    store.refused("x-line-1-before-2", "X,65,0,01\n", "E,1,1");
    store.refused("x-line-1-before-6", "X,1,5,5", "E,1,1");
    store.refused("x-line-3-before-4", format!("{full}O,A,0,0,1\nX,1,330,335\n"), "E,3,34");
    store.refused("x-line-3-before-2", "X,1,1,2\nO,A,0,0,1\nX,0,3,4\n", "E,3,3");
    store.refused("x-line-3-before-6", "X,1,1,2\nO,A,0,0,1\nX,1,1,2\n", "E,3,3");
    store.refused("x-line-4-before-2", format!("{full}X,0,330,335\n"), "E,4,33");
    store.refused("x-line-4-before-6", format!("{full}X,1,0,1\n"), "E,4,33");
    store.refused("x-line-2-before-6", "X,1,0,0\n", "E,2,1");
}

/// The first faulty line decides, whatever its number.
fn two_faulty_lines(store: &mut Store) {
    store.refused("x-lines-6-then-1", "X,1,5,5\nX\n", "E,6,1");
    store.refused("x-lines-2-then-3", "X,65,0,1\nO,A,0,0,1\nX,1,2,3\n", "E,2,1");
    store.refused("x-lines-6-then-2", "X,1,5,4\nX,1,6,160001\n", "E,6,1");
    store.refused("x5-one-place-no-order", "X,1,5,6\n", "E,5,0");
    store.refused("x8-one-place-to-spare", "X,2,5,6\nO,A,9,0,1\n", "E,8,0");
    store.refused("x-lines-2-then-7", h("C,90,200,1", "C,90,200,0").replace("X,2,95", "X,1,95"), "E,2,5");
    store.refused("x-lines-7-before-8", h("C,90", "C,96").replace("X,2,95", "X,1,95"), "E,7,0");
}
