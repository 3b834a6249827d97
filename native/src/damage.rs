//! Damaged texts.

use crate::rng::Rng;

/// Bytes that mean something in a text, or stand beside such.
const BYTES: &[u8] = b"\0\r\n ,-09AGOTWXz\x7f\x80\xff";

/// Ends to be added.
const ENDS: [&[u8]; 8] = [b"\n", b"\r\n", b"G,1\n", b"W,1,2\n", b"T,1,1\n", b"X,1,1,2\n", b"O,A,0,0,1\n", b"O,A,0,0,1"];

/// Malformed numbers, and numbers at an end of some range.
#[rustfmt::skip]
const NUMBER_FIELDS: [&str; 26] = [
    "", "0", "1", "00", "01", "-1", "+1", "64", "65", "1000", "1001", "1440", "1441", "10000", "10001", "100000", "100001",
    "160000", "160001", "999999", "1000000", "0000001", "4294967297", "1.0", " 1", "1 ",
];

/// More copies of a line than there may be windows or trains.
const COPIES: usize = 70;

/// A text with one to three damages; it may still be a good sheet.
pub fn damaged(rng: &mut Rng, text: &[u8]) -> Vec<u8> {
    let mut text = text.to_vec();
    for _ in 0..rng.pick(&[1, 1, 1, 2, 3]) {
        damage(rng, &mut text);
    }
    text
}

fn damage(rng: &mut Rng, text: &mut Vec<u8>) {
    if text.is_empty() {
        return text.push(rng.byte());
    }
    let at = rng.index(text.len());
    match rng.within(0, 13) {
        0 => text[at] = rng.byte(),
        1 => text[at] = rng.pick(BYTES),
        2 => text.insert(at, rng.pick(BYTES)),
        3 => drop(text.remove(at)),
        4 => text.truncate(at),
        5 => drop(text.pop()),
        6 => text.extend(rng.pick(&ENDS)),
        7 => replace_number(rng, text),
        way => damage_lines(rng, text, way),
    }
}

/// Damages to a whole line, each with its byte 10.
fn damage_lines(rng: &mut Rng, text: &mut Vec<u8>, way: u32) {
    let mut lines: Vec<Vec<u8>> = text.split_inclusive(|&byte| byte == b'\n').map(<[u8]>::to_vec).collect();
    let count = lines.len();
    let at = rng.index(count);
    match way {
        8 => lines.swap(at, rng.index(count)),
        9 => lines.insert(at, lines[at].clone()),
        10 => drop(lines.remove(at)),
        11 => {
            let half = lines[at].len() / 2;
            lines[at].truncate(half);
        }
        12 => {
            let copies = vec![lines[at].clone(); COPIES];
            lines.splice(at..at, copies);
        }
        _ => {
            let end = lines[at].len().saturating_sub(1);
            lines[at].insert(end, b'\r');
        }
    }
    *text = lines.concat();
}

/// Puts one of the numbers in place of a field.
fn replace_number(rng: &mut Rng, text: &mut Vec<u8>) {
    let commas: Vec<usize> = (0..text.len()).filter(|&at| text[at] == b',').collect();
    if commas.is_empty() {
        return;
    }
    let start = rng.pick(&commas) + 1;
    let length = text[start..].iter().position(|byte| b",\n".contains(byte)).unwrap_or(text.len() - start);
    text.splice(start..start + length, rng.pick(&NUMBER_FIELDS).bytes());
}
