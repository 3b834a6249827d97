use native::damage::damaged;
use native::draw::{big, drawn_size, small};
use native::limits::{DIGITS, NAME_BYTES};
use native::reader::{order_name, read};
use native::refusal::*;
use native::rng::Rng;
use native::sheet::{Form, FORMS};
use native::write::{drawn_name, numbered_name, text_of};

fn other(form: Form) -> Form {
    match form {
        Form::Windows => Form::Timetable,
        Form::Timetable => Form::Windows,
    }
}

#[test]
fn texts_read_back() {
    let mut rng = Rng::new(5);
    for turn in 0..1_000 {
        let form = FORMS[turn % 2];
        let (n, q) = drawn_size(&mut rng);
        let sheet = big(&mut rng, form, n, q);
        let mut names = Vec::new();
        let text = text_of(&sheet, &mut |_| {
            names.push(drawn_name(&mut rng));
            names[names.len() - 1].clone()
        });
        let reading = read(text.as_bytes(), form).unwrap();
        assert_eq!(reading.sheet, sheet);
        assert!(reading.names.iter().map(|place| &text[place.clone()]).eq(&names));
        let name = |order: usize| order_name(text.as_bytes(), form, order);
        assert_eq!(name(1), names[0].as_bytes());
        assert_eq!(name(n as usize), names[n as usize - 1].as_bytes());
        assert_eq!(name(0), b"");
        assert_eq!(name(n as usize + 1), b"");
        assert_eq!(read(text.as_bytes(), other(form)).unwrap_err(), Refusal::of_line(MALFORMED, 1));
        assert_eq!(order_name(text.as_bytes(), other(form), 1), b"");
    }
}

/// A second, slow opinion on one line's form: spelled out from the fields.
fn well_formed(line: &str, form: Form) -> bool {
    let fields: Vec<&str> = line.split(',').collect();
    let number = |field: &&str| {
        field.len() <= *DIGITS.end() && field.parse::<u32>().is_ok_and(|value| value.to_string() == **field)
    };
    let name = |field: &str| {
        NAME_BYTES.contains(&field.len())
            && field.chars().all(|letter| "ABCDEFGHIJKLMNOPQRSTUVWXYZ0123456789-".contains(letter))
    };
    let shape = match fields[0] {
        "G" => fields.len() == 2 && fields[1..].iter().all(number),
        "W" | "T" => fields.len() == 3 && fields[1..].iter().all(number),
        "X" => fields.len() == 4 && fields[1..].iter().all(number),
        "O" => fields.len() == 5 && name(fields[1]) && fields[2..].iter().all(number),
        _ => false,
    };
    let letters = match form {
        Form::Windows => "GWTO",
        Form::Timetable => "XO",
    };
    shape && letters.contains(fields[0])
}

/// The number, from 1, of the first line that is not well formed.
fn first_malformed(text: &[u8], form: Form) -> Option<usize> {
    let good = |line: &[u8]| {
        let line = std::str::from_utf8(line).ok().and_then(|line| line.strip_suffix('\n'));
        line.is_some_and(|line| well_formed(line, form))
    };
    text.split_inclusive(|&byte| byte == b'\n').position(|line| !good(line)).map(|above| above + 1)
}

#[test]
fn damaged_texts() {
    let mut rng = Rng::new(6);
    let mut met = [0; NUMBER_COUNT];
    for turn in 0..40_000 {
        let form = FORMS[turn % 2];
        let text = text_of(&small(&mut rng, form, 9), &mut numbered_name);
        let text = damaged(&mut rng, text.as_bytes());
        let malformed = first_malformed(&text, form);
        let Err(Refusal { number, returned }) = read(&text, form) else {
            met[0] += 1;
            assert_eq!(malformed, None);
            continue;
        };
        met[number] += 1;
        match number {
            MALFORMED => assert_eq!(malformed, Some(returned)),
            KIND_MISSING | TOO_FEW_PLACES => assert_eq!((malformed, returned), (None, 0)),
            _ => assert!(returned > 0 && malformed.is_none_or(|line| returned < line)),
        }
    }
    assert!(met[..=TOO_FEW_PLACES].iter().all(|&count| count > 20), "{met:?}");
    assert!(met[TOO_FEW_PLACES + 1..].iter().all(|&count| count == 0), "{met:?}");
}
