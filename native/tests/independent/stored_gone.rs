//! The gone parts of stored sheets: answered as stored, and as every schedule that begins with them says.

use crate::gone::refused;
use crate::judge::good_gone;
use native::agreement::agrees_anew;
use native::gone::Left;
use native::listing::seen_with_all_departures_behind;
use native::plan::NUMBERS_A_TRAIN;
use native::planner::figure;
use native::print::INDEPENDENT;
use native::prompt::Tally;
use native::refusal::*;
use native::replan::{rechoose, relist, search_anew};
use native::search::Recorded;
use native::stored::stored_sheet;
use native::stored_gone::{stored_gone_parts, StoredGone, CAME_IN, LATEST};
use native::trace::trace_behind;
use native::wishes::wishes;

#[test]
fn answered_as_stored() {
    for StoredGone { sheet: number, gone, answer, shows } in stored_gone_parts() {
        let sheet = stored_sheet(number);
        assert_eq!(search_anew(&sheet, &gone), answer, "{number}: {shows}");
        let recorded = answer.as_ref().map_err(|&refusal| refusal);
        let listed = recorded.map(Recorded::listing);
        assert_eq!(relist(&sheet, &gone), listed, "{number}: {shows}");
        for wish in wishes(&listed.map_or(Vec::new(), |listing| listing.pairs)) {
            let chosen = recorded.and_then(|recorded| recorded.chosen(wish).cloned());
            assert_eq!(rechoose(&sheet, &gone, wish), chosen, "{wish} {number}: {shows}");
        }
    }
}

/// Refused with 21 by the second opinion, or else the front, the best by each wish and no train needlessly late by every schedule, and the rounds word for
/// word.
#[test]
fn answered_as_every_schedule_says() {
    let mut tally = Tally::default();
    for StoredGone { sheet: number, gone, answer, shows } in stored_gone_parts() {
        let sheet = stored_sheet(number);
        assert_eq!(good_gone(&sheet, &gone), answer != Err(Refusal::of_all(WRONG_GONE_PART)), "{number}: {shows}");
        if good_gone(&sheet, &gone) {
            let all = seen_with_all_departures_behind(&sheet, &gone);
            assert!(agrees_anew(&INDEPENDENT, &sheet, &gone, &all), "{number}: {shows}");
        }
        if let Ok(recorded) = answer {
            let left = Left::of(&sheet, &gone).expect("a good gone part");
            assert_eq!(trace_behind(&left.sheet, left.ahead).outcomes.len(), recorded.rounds, "{number}: {shows}");
            tally.check_small_anew(&INDEPENDENT, &sheet, &gone);
        }
    }
    tally.print("planned anew, stored gone parts");
    assert!(tally.needless == 0 && tally.empty.min(tally.waiting) > 0, "{tally:?}");
}

/// 10 before 21 and before 8: an area lacks an element.
#[test]
fn areas_too_short_come_first() {
    for StoredGone { sheet: number, gone, answer, shows } in stored_gone_parts() {
        let sheet = stored_sheet(number);
        let (n, q) = sheet.size();
        let (pairs, times) = (figure(&sheet), NUMBERS_A_TRAIN * q);
        for lengths in [[pairs - 1, n - 1, times], [pairs - 1, n, times - 1]] {
            assert_eq!(refused(&sheet, &gone, u32::MAX, lengths), [AREA_TOO_SHORT; 2], "{number}: {shows}");
        }
        if let Err(refusal) = answer {
            assert_eq!(refused(&sheet, &gone, 0, [pairs, n, times]), [refusal.number; 2], "{number}: {shows}");
        }
    }
}

/// Each of these sheets has a gone part with a plan behind it.
#[test]
fn a_plan_behind_gone_trains_on_each() {
    let planned = stored_gone_parts().into_iter().filter(|part| part.answer.is_ok() && part.gone.minute > 0);
    let mut sheets: Vec<u32> = planned.map(|part| part.sheet).collect();
    sheets.dedup();
    assert!(sheets.into_iter().eq(CAME_IN..=LATEST));
}
