//! Document 01's cases, and one that is planned anew.

use crate::reader::read;
use crate::sheet::{Form, Sheet};

// The cases that the others are made from.
pub const CASE_A: &str = "G,60\nW,0,100\nW,150,200\nT,1,30\nT,2,20\nO,A,0,60,1\nO,B,40,60,3\nO,C,90,200,1\n";
pub const CASE_E: &str = "G,1\nW,0,0\nT,1,1\nO,A,0,0,1\n";
pub const CASE_H: &str = "X,1,50,80\nX,2,95,120\nO,A,0,60,1\nO,B,40,60,3\nO,C,90,200,1\n";

/// Case a with a third train, and an order D that came in late.
pub const DAY: &str =
    "G,60\nW,0,100\nW,150,200\nT,1,30\nT,2,20\nT,1,20\nO,A,0,60,1\nO,B,40,60,3\nO,C,90,200,1\nO,D,95,130,5\n";

/// The text with one part changed.
pub fn with(text: &str, old: &str, new: &str) -> String {
    assert_eq!(text.matches(old).count(), 1, "{old:?} in {text:?}");
    text.replace(old, new)
}

/// Cases a to i.
pub fn cases() -> [String; 9] {
    [
        CASE_A.to_string(),
        with(CASE_A, "G,60", "G,10"),
        with(CASE_A, "G,60", "G,61"),
        with(CASE_A, "W,0,100\nW,150,200", "W,0,80"),
        CASE_E.to_string(),
        with(CASE_E, "A,0,0", "A,1,0"),
        with(CASE_E, "A,0,0", "A,0,2"),
        CASE_H.to_string(),
        with(CASE_H, "X,1,50", "X,1,39"),
    ]
}

/// The sheet of a text that is read.
pub fn sheet_of(text: &str) -> Sheet {
    read(text.as_bytes(), Form::of(text.as_bytes())).expect("a good text").sheet
}
