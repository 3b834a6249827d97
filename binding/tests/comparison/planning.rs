use crate::chosen::check_choosing;
use crate::filled::filled;
use crate::ladders::ladders;
use crate::listed::check_listing;
use crate::share::{any_empty, Share};
use crate::size::Size;
use crate::spoil::spoil;
use binding::areas::{PairsArea, PlanAreas};
use binding::exported::ExportedSheet;
use native::admission::admit;
use native::draw::{big, small};
use native::ladder::Ladder;
use native::limits::MOST_TRAINS;
use native::reader::read;
use native::refusal::*;
use native::rng::Rng;
use native::search::{search, Recorded};
use native::sheet::{Form, Sheet, FORMS};
use native::stored::stored_sheets;
use native::wishes::wishes;

/// At least so many stored sheets are read.
const LEAST_READ: usize = 120;

/// The admitted sheets, and how often each refusal was met, or none under 0: in listing, and in choosing by each wish.
#[derive(Debug, Default)]
pub struct Met {
    pub share: Share,
    pub numbers: [usize; NUMBER_COUNT],
}

impl Met {
    /// The product lists and chooses as the independent planner does, whose rounds are made once for all wishes.
    pub fn check(&mut self, sheet: &Sheet, rng: &mut Rng) {
        let admitted = admit(sheet);
        let recorded = admitted.and_then(|()| search(sheet));
        if admitted.is_ok() {
            self.share.meet(sheet, recorded.as_ref().is_ok_and(|recorded| any_empty(&recorded.entries)));
        }
        let recorded = recorded.as_ref().map_err(|&refusal| refusal);
        let listed = recorded.map(Recorded::listing);
        check_listing(sheet, &listed, rng);
        self.meet(&listed);
        for wish in wishes(&listed.map_or(Vec::new(), |listing| listing.pairs)) {
            let chosen = recorded.and_then(|recorded| recorded.chosen(wish));
            check_choosing(sheet, wish, &chosen, rng);
            self.meet(&chosen);
        }
    }

    fn meet<T>(&mut self, answer: &Result<T, Refusal>) {
        self.numbers[answer.as_ref().err().map_or(0, |refusal| refusal.number)] += 1;
    }

    fn print(&self, what: &str) {
        println!("planning, {what}: {} answers compared on {}", self.numbers.iter().sum::<usize>(), self.share);
    }
}

#[test]
fn guards_tell_what_was_written() {
    let mut pairs = PairsArea::of_length(4);
    assert!(pairs.guarded_but(0));
    pairs.lent()[1] = 0;
    assert!(pairs.guarded_but(2) && !pairs.guarded_but(1));
    let PlanAreas { mut train_of_order, mut times } = PlanAreas::of_lengths([2, 4]);
    train_of_order.lent()[0] = 1;
    times.lent()[3] = 0;
    assert!(train_of_order.guarded_but(1) && !train_of_order.guarded_but(0));
    assert!(times.guarded_but(4) && !times.guarded_but(3));
}

/// Choosing asks for three numbers of times a train, in either form.
#[test]
fn three_numbers_a_train() {
    let mut rng = Rng::new(107);
    for q in 1..=MOST_TRAINS {
        for form in FORMS {
            let sheet = big(&mut rng, form, MOST_TRAINS as u32, q);
            let too_short = |length| {
                let mut areas = PlanAreas::of_lengths([MOST_TRAINS, length]);
                let reply = ExportedSheet::from(&sheet).choose_in(u32::MAX, &mut areas);
                reply.cause.number == AREA_TOO_SHORT && areas.times.guarded_but(0)
            };
            assert!(too_short(3 * q - 1) && !too_short(3 * q), "{sheet:?}");
        }
    }
}

#[test]
fn random_sheets() {
    let mut rng = Rng::new(101);
    for form in FORMS {
        for (sheets, size) in [(20_000, Size::UpTo(9)), (3_000, Size::UpTo(40)), (300, Size::Any)] {
            let mut met = Met::default();
            (0..sheets).for_each(|_| met.check(&size.draw(&mut rng, form), &mut rng));
            met.print(&format!("{form:?}, {size}"));
            assert!(met.share.is_good(), "{met:?}");
        }
    }
}

#[test]
fn many_rounds() {
    let mut rng = Rng::new(102);
    let mut met = Met::default();
    for (release, stir) in [(0, 0), (9, 0), (300, 3), (3_000, 50)] {
        let ladder = Ladder { release, stir, shuffled: stir > 0 };
        ladders(&mut rng, 120, 24, ladder).iter().for_each(|sheet| met.check(sheet, &mut rng));
    }
    met.print("ladders");
    assert!(met.numbers[NO_SCHEDULE] == 0 && met.share.is_good(), "{met:?}");
}

#[test]
fn filled_lists() {
    let mut rng = Rng::new(121);
    let mut met = Met::default();
    (0..300).for_each(|_| met.check(&filled(&mut rng), &mut rng));
    met.print("filled lists");
    assert!(met.share.is_good(), "{met:?}");
}

#[test]
fn spoiled_sheets() {
    let mut rng = Rng::new(103);
    let (mut met, mut drawn) = (Met::default(), Share::default());
    for turn in 0..40_000 {
        let mut sheet = small(&mut rng, FORMS[turn % 2], 9);
        drawn.meet_searched(&sheet);
        for _ in 0..rng.within(1, 3) {
            spoil(&mut rng, &mut sheet);
        }
        met.check(&sheet, &mut rng);
    }
    met.print("spoiled");
    let possible = [0, OUT_OF_RANGE, TOO_MANY, KIND_MISSING, OUT_OF_ORDER, TOO_FEW_PLACES, NO_SCHEDULE, WISH_TOO_EARLY];
    assert!(possible.iter().all(|&number| met.numbers[number] > 100), "{met:?}");
    assert!(met.share.is_good() && drawn.is_good(), "{met:?} {drawn:?}");
}

#[test]
fn stored_sheets_agree() {
    let mut rng = Rng::new(106);
    let mut met = Met::default();
    for stored in stored_sheets() {
        if let Ok(reading) = read(&stored.text, Form::of(&stored.text)) {
            met.check(&reading.sheet, &mut rng);
        }
    }
    met.print("stored");
    assert!(met.share.sheets >= LEAST_READ && met.share.is_good(), "{met:?}");
}
