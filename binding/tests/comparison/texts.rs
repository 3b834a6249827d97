use crate::share::Share;
use crate::size::Size;
use binding::calls::{read_timetable, read_windows};
use binding::product::{name_place, PRODUCT};
use native::damage::damaged;
use native::draw::small;
use native::limits::MOST_ORDERS;
use native::print::{print, print_by, INDEPENDENT};
use native::refusal::*;
use native::rng::Rng;
use native::sheet::{Form, Sheet, FORMS};
use native::write::{drawn_name, numbered_name, text_of};

/// What the program `plan` prints for a text is what the independent implementation prints; the product lists in areas that are as long as it says
/// itself.
fn check_printing(text: &[u8]) {
    assert_eq!(print_by(&PRODUCT, text), print(text), "{}", text.escape_ascii());
}

/// Both readers and all name calls agree on a text, taken as of this form. Gives what is read.
pub fn check_reading(text: &[u8], form: Form) -> Result<Sheet, Refusal> {
    let answer = (PRODUCT.read)(text, form);
    assert_eq!(answer, (INDEPENDENT.read)(text, form), "{}", text.escape_ascii());
    // No such order, or no sheet at all: the empty part.
    let n = answer.as_ref().map_or(0, |reading| reading.names.len());
    for order in [0, n + 1, MOST_ORDERS, MOST_ORDERS + 1, usize::MAX] {
        let is_named = (1..=n).contains(&order);
        assert!(is_named || name_place(text, form, order) == (0..0), "{order} {}", text.escape_ascii());
    }
    if answer.is_err() {
        check_empty(text, form);
    }
    answer.map(|reading| reading.sheet)
}

/// A refused text gives the empty sheet.
fn check_empty(text: &[u8], form: Form) {
    let counts = match form {
        Form::Windows => {
            let sheet = read_windows(text).sheet;
            vec![sheet.gap as usize, sheet.window_count, sheet.train_count, sheet.order_count]
        }
        Form::Timetable => {
            let sheet = read_timetable(text).sheet;
            vec![sheet.train_count, sheet.order_count]
        }
    };
    assert!(counts.iter().all(|&count| count == 0), "{counts:?} {}", text.escape_ascii());
}

#[test]
fn good_texts() {
    let mut rng = Rng::new(104);
    let mut to_spare = 0;
    for turn in 0..400 {
        let sheet = Size::Any.draw(&mut rng, FORMS[turn % 2]);
        to_spare += usize::from(sheet.spare_places() > Some(0));
        let text = text_of(&sheet, &mut |_| drawn_name(&mut rng));
        check_printing(text.as_bytes());
        for form in FORMS {
            let number = check_reading(text.as_bytes(), form).err().map(|refusal| refusal.number);
            assert_eq!(number, (form != sheet.form()).then_some(MALFORMED), "{text}");
        }
    }
    println!("texts, good: 400 read by both readers ({to_spare} with places to spare)");
    assert!((100..=300).contains(&to_spare), "{to_spare}");
}

#[test]
fn damaged_texts() {
    let mut rng = Rng::new(105);
    let (mut met, mut to_spare, mut drawn) = ([0; NUMBER_COUNT], 0, Share::default());
    for turn in 0..60_000 {
        let form = FORMS[turn % 2];
        let sheet = small(&mut rng, form, 9);
        drawn.meet_searched(&sheet);
        let text = damaged(&mut rng, text_of(&sheet, &mut numbered_name).as_bytes());
        check_printing(&text);
        match check_reading(&text, form) {
            Ok(sheet) => {
                met[0] += 1;
                to_spare += usize::from(sheet.spare_places() > Some(0));
            }
            Err(refusal) => met[refusal.number] += 1,
        }
        if Form::of(&text) != form {
            _ = check_reading(&text, Form::of(&text));
        }
    }
    println!("texts, damaged: 60000 compared, {} of them read ({to_spare} with places to spare)", met[0]);
    assert!(met[..=TOO_FEW_PLACES].iter().all(|&count| count > 20), "{met:?}");
    assert!(4 * to_spare.min(met[0] - to_spare) > met[0] && drawn.is_good(), "{to_spare} {met:?} {drawn:?}");
}
