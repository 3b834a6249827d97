use native::cases::cases;
use native::print::print;
use native::stored::{stored_sheets, LEAST_STORED};

#[test]
fn cases_a_to_i() {
    let plans = [
        "P,110,150\nP,130,70\nD,1,40,70,1\nD,2,100,130,1\nL,A,2\nL,B,1\nL,C,2\nR,2\n",
        "P,110,50\nD,1,40,70,1\nD,2,90,110,1\nL,A,2\nL,B,1\nL,C,2\nR,2\n",
        "P,110,150\nP,170,110\nD,1,40,70,1\nD,2,150,170,2\nL,A,2\nL,B,1\nL,C,2\nR,2\n",
        "E,8,0\n",
        "P,1,1\nD,1,0,1,1\nL,A,1\nR,1\n",
        "E,8,0\n",
        "P,1,-1\nD,1,0,1,1\nL,A,1\nR,1\n",
        "P,120,60\nD,1,50,80,0\nD,2,95,120,0\nL,A,2\nL,B,1\nL,C,2\nR,2\n",
        "P,120,180\nD,1,39,80,0\nD,2,95,120,0\nL,A,1\nL,B,2\nL,C,2\nR,2\n",
    ];
    for (text, plan) in cases().iter().zip(plans) {
        assert_eq!(print(text.as_bytes()), plan, "{text}");
    }
}

/// No wagon arrives behind minute 130, but train 3, which is empty, does.
#[test]
fn the_example_of_an_empty_train() {
    let text = include_bytes!("../../../examples/empty.sheet");
    let plan = "P,170,90\nP,190,30\nD,1,40,70,1\nD,2,100,130,1\nD,3,160,190,2\nL,A,1\nL,B,1\nL,C,2\nR,5\n";
    assert_eq!(print(text), plan);
}

#[test]
fn stored_sheets_print_as_stored() {
    let stored = stored_sheets();
    for sheet in &stored {
        assert_eq!(print(&sheet.text), sheet.plan, "{}", sheet.name);
    }
    assert!(stored.len() >= LEAST_STORED, "{} stored sheets", stored.len());
}
