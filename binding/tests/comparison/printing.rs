use crate::texts::check_reading;
use binding::product::PRODUCT;
use native::print::print_by;
use native::sheet::FORMS;
use native::stored::{stored_sheets, LEAST_STORED};

#[test]
fn stored_sheets_print_as_stored() {
    let stored = stored_sheets();
    for sheet in &stored {
        assert_eq!(print_by(&PRODUCT, &sheet.text), sheet.plan, "{}", sheet.name);
        for form in FORMS {
            _ = check_reading(&sheet.text, form);
        }
    }
    println!("stored sheets: {} printed by the product as stored", stored.len());
    assert!(stored.len() >= LEAST_STORED, "{} stored sheets", stored.len());
}
