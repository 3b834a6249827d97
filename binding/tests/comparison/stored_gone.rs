//! The gone parts of stored sheets, each with its stored answer: the product lists and chooses so, and refuses areas that are too short with 10.

use crate::replanned::Met;
use native::refusal::*;
use native::rng::Rng;
use native::stored::stored_sheet;
use native::stored_gone::stored_gone_parts;

#[test]
fn answered_as_stored() {
    let mut rng = Rng::new(132);
    let mut met = Met::default();
    for part in stored_gone_parts() {
        met.check_answer(&stored_sheet(part.sheet), &part.gone, &part.answer, &mut rng);
    }
    met.print("stored gone parts");
    assert!(met.each_above(4, &[0, NO_SCHEDULE, WISH_TOO_EARLY, WRONG_GONE_PART]), "{met:?}");
}
