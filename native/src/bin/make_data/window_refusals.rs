//! Refused texts of the window form, and some that were refused while every train had to be full.

use crate::parts::{order_lines, train_lines, window_lines};
use crate::store::Store;
use native::cases::{with, CASE_A};

pub fn store_all(store: &mut Store) {
    store.group(100);
    malformed(store);
    kinds_and_counts(store);
    order_and_places(store);
    no_schedule(store);
    two_faults_on_a_line(store);
    two_faulty_lines(store);
}

fn a(old: &str, new: &str) -> String {
    with(CASE_A, old, new)
}

fn malformed(store: &mut Store) {
    store.refused("w1-empty-line-between", a("T,1,30\n", "\nT,1,30\n"), "E,1,4");
    store.refused("w1-empty-line-last", format!("{CASE_A}\n"), "E,1,9");
    store.refused("w1-no-final-byte-10", &CASE_A[..CASE_A.len() - 1], "E,1,8");
    store.refused("w1-unknown-kind", a("T,2,20", "Q,2,20"), "E,1,5");
    store.refused("w1-kind-alone", a("G,60", "G"), "E,1,1");
    store.refused("w1-timetable-line", a("T,2,20", "X,2,95,120"), "E,1,5");
    store.refused("w1-orders-before-timetable-lines", "O,A,0,60,1\nX,1,50,80\n", "E,1,2");
    store.refused("w1-field-too-many", a("W,0,100", "W,0,100,0"), "E,1,2");
    store.refused("w1-number-empty", a("T,1,30", "T,,30"), "E,1,4");
    store.refused("w1-number-seven-digits", a("C,90", "C,1000000"), "E,1,8");
    store.refused("w1-number-leading-zero", a("G,60", "G,060"), "E,1,1");
    store.refused("w1-number-double-zero", a("W,0,100", "W,00,100"), "E,1,2");
    store.refused("w1-number-minus", a("A,0,60", "A,-1,60"), "E,1,6");
    store.refused("w1-number-with-space", a("T,2,20", "T,2, 20"), "E,1,5");
    store.refused("w1-name-empty", a("O,A,", "O,,"), "E,1,6");
    store.refused("w1-name-13-bytes", a("O,A,", "O,ABCDEFGHIJKLM,"), "E,1,6");
    store.refused("w1-name-lower-case", a("O,B,", "O,b,"), "E,1,7");
}

fn kinds_and_counts(store: &mut Store) {
    store.refused("w3-gap-after-window", "W,0,100\nG,60\nT,1,30\nO,A,0,60,1\n", "E,3,2");
    store.refused("w3-window-after-train", a("T,1,30\n", "T,1,30\nW,300,400\n"), "E,3,5");
    store.refused("w3-train-after-order", a("O,C,90,200,1\n", "T,1,1\nO,C,90,200,1\n"), "E,3,8");
    store.refused("w4-second-gap", a("G,60\n", "G,60\nG,60\n"), "E,4,2");
    store.refused("w4-window-65", format!("G,1\n{}{}{}", window_lines(65), train_lines(1), order_lines(1)), "E,4,66");
    store.refused("w4-train-33", format!("G,1\n{}{}{}", window_lines(64), train_lines(33), order_lines(33)), "E,4,98");
    store.refused("w4-order-201", format!("G,1\nW,0,9\nT,64,1\n{}", order_lines(201)), "E,4,204");
    store.refused("w5-empty-text", "", "E,5,0");
    store.refused("w5-no-gap", a("G,60\n", ""), "E,5,0");
    store.refused("w5-no-window", a("W,0,100\nW,150,200\n", ""), "E,5,0");
    store.refused("w5-no-train", a("T,1,30\nT,2,20\n", ""), "E,5,0");
    store.refused("w5-no-order", &CASE_A[..CASE_A.find('O').unwrap()], "E,5,0");
}

fn order_and_places(store: &mut Store) {
    store.refused("w6-from-above-to", a("W,0,100", "W,101,100"), "E,6,2");
    store.refused("w6-from-equals-previous-to", a("W,150,200", "W,100,200"), "E,6,3");
    store.refused("w6-windows-fall", a("W,0,100\nW,150,200", "W,150,200\nW,0,100"), "E,6,3");
    store.refused("w7-one-place-too-few", a("T,2,20", "T,1,20"), "E,7,0");
    store.planned("w-one-place-to-spare", &a("T,2,20", "T,3,20"));
    store.refused("w8-most-places", format!("G,1\nW,0,9\n{}{}", "T,64,1\n".repeat(32), order_lines(200)), "E,8,0");
}

fn no_schedule(store: &mut Store) {
    store.refused("w8-release-behind-last-window", a("C,90", "C,201"), "E,8,0");
    store.refused("w8-gap-behind-last-window", "G,11\nW,0,10\nT,1,1\nT,1,1\nO,A,0,0,1\nO,B,0,0,1\n", "E,8,0");
    store.refused(
        "w8-release-of-train-1-pushes-train-2-out",
        "G,5\nW,0,10\nT,1,1\nT,1,1\nO,A,6,0,1\nO,B,6,0,1\n",
        "E,8,0",
    );
    store.refused(
        "w8-after-100000",
        "G,1440\nW,0,0\nW,100000,100000\nT,1,1\nT,1,1\nT,1,1\nO,A,0,0,1\nO,B,0,0,1\nO,C,0,0,1\n",
        "E,8,0",
    );
}

/// The tests of a line come in the order 1, 3, 4, 2, 6.
fn two_faults_on_a_line(store: &mut Store) {
    let full = format!("G,1\n{}", window_lines(64));
    store.refused("w-line-1-before-3", "W,0,9\nG,1", "E,1,2");
    store.refused("w-line-1-before-4", "G,1\nG,x\n", "E,1,2");
    store.refused("w-line-1-before-2", "G,0", "E,1,1");
    store.refused("w-line-1-before-6", "G,1\nW,5,4", "E,1,2");
    store.refused("w-line-3-before-4", "G,1\nW,0,9\nG,1\n", "E,3,3");
    store.refused("w-line-3-before-2", "G,1\nW,0,9\nT,1,1\nW,100001,100001\n", "E,3,4");
    store.refused("w-line-3-before-6", "G,1\nW,0,9\nT,1,1\nW,5,4\n", "E,3,4");
    store.refused("w-line-4-before-2-gap", "G,1\nG,0\n", "E,4,2");
    store.refused("w-line-4-before-2-order", format!("G,1\nW,0,9\nT,64,1\n{}O,A,0,0,0\n", order_lines(200)), "E,4,204");
    store.refused("w-line-4-before-6", format!("{full}W,5,4\n"), "E,4,66");
    store.refused("w-line-2-before-6", "G,1\nW,100001,4\n", "E,2,2");
}

/// The first faulty line decides, whatever its number.
fn two_faulty_lines(store: &mut Store) {
    let many = train_lines(33);
    // A refusal for line 2, in the order of tests on one line; its text; lines that bring the same refusal on a later line.
    let faults = [
        (1, "G,1\nW,x,1\n", "W,0,x\n"),
        (3, "W,0,9\nG,1\n", "W,50,60\nG,1\n"),
        (4, "G,1\nG,1\n", &many),
        (2, "G,1\nW,0,100001\n", "W,70,100001\n"),
        (6, "G,1\nW,5,4\n", "W,81,80\n"),
    ];
    for (place, (first, text, _)) in faults.iter().enumerate() {
        for (second, _, more) in &faults[..place] {
            store.refused(&format!("w-lines-{first}-then-{second}"), format!("{text}{more}"), &format!("E,{first},2"));
        }
    }
    store.refused("w-lines-6-then-5", "W,5,4\n", "E,6,1");
    store.refused("w2-one-place-to-spare", a("C,90,200,1", "C,90,200,0").replace("T,1,30", "T,2,30"), "E,2,8");
    store.refused("w5-two-places-no-order", "G,1\nW,0,9\nT,2,1\n", "E,5,0");
    store.refused("w8-one-place-to-spare", "G,1\nW,0,0\nT,2,1\nO,A,9,0,1\n", "E,8,0");
    store.refused("w-lines-2-then-7", a("C,90,200,1", "C,90,200,0").replace("T,2,20", "T,1,20"), "E,2,8");
    store.refused("w-lines-5-before-7", a("G,60\n", "").replace("T,2,20", "T,1,20"), "E,5,0");
    store.refused("w-lines-7-before-8", a("C,90", "C,201").replace("T,2,20", "T,1,20"), "E,7,0");
}
