//! Texts of any bytes, and texts as long as the program `plan` reads.

use crate::store::Store;
use native::cases::CASE_A;
use native::print::LONGEST_TEXT;

/// Case a with one part changed to any bytes.
fn case_a_with(old: &str, new: &[u8]) -> Vec<u8> {
    let at = CASE_A.find(old).expect("a part of case a");
    [&CASE_A.as_bytes()[..at], new, &CASE_A.as_bytes()[at + old.len()..]].concat()
}

pub fn store_all(store: &mut Store) {
    store.group(600);
    store.refused("nul-in-name", case_a_with("O,B,", b"O,B\0,"), "E,1,7");
    store.refused("nul-in-number", case_a_with("G,60", b"G,6\0"), "E,1,1");
    store.refused("nul-behind-text", [CASE_A.as_bytes(), b"\0"].concat(), "E,1,9");
    store.refused("carriage-returns", CASE_A.replace('\n', "\r\n"), "E,1,1");
    store.refused("8-bit-name", case_a_with("O,B,", b"O,\xc4RGER,"), "E,1,7");
    store.refused("8-bit-digit", case_a_with("G,60", b"G,6\xb0"), "E,1,1");
    store.refused("byte-138-for-byte-10", case_a_with("\nT,1,30", b"\x8aT,1,30"), "E,1,3");
    store.refused("byte-order-mark", [b"\xef\xbb\xbf", CASE_A.as_bytes()].concat(), "E,1,1");
    store.refused("bytes-next-to-letters", case_a_with("O,C,", b"O,@[,"), "E,1,8");
    let one_line = [b"O,".to_vec(), vec![b'A'; LONGEST_TEXT - 2]].concat();
    store.refused("65536-bytes-in-one-line", one_line, "E,1,1");
    let order = "O,FILLER,0,0,1\n";
    let mut long = CASE_A.to_string();
    while long.len() < LONGEST_TEXT {
        long += order;
    }
    store.refused("65536-bytes-too-many-orders", &long[..LONGEST_TEXT], "E,4,206");
    store.refused("more-than-65536-bytes", &long, "E,4,206");
}
