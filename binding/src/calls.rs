//! The product's exported calls (include/joshkamber.h) behind safe functions. None of them asks anything of its arguments.

use native::limits::{MOST_ORDERS, MOST_TRAINS, MOST_WINDOWS};

/// Number 0: not refused.
#[repr(C)]
#[derive(Clone, Copy, Debug, PartialEq, Eq)]
pub struct Cause {
    pub number: usize,
    pub returned: usize,
}

/// A sheet of the window form: columns with counts.
#[repr(C)]
#[derive(Clone, Copy, Debug, PartialEq, Eq)]
pub struct WindowSheet {
    pub gap: u32,
    pub window_count: usize,
    pub window_from: [u32; MOST_WINDOWS],
    pub window_to: [u32; MOST_WINDOWS],
    pub train_count: usize,
    pub capacity: [u32; MOST_TRAINS],
    pub running: [u32; MOST_TRAINS],
    pub order_count: usize,
    pub release: [u32; MOST_ORDERS],
    pub due: [u32; MOST_ORDERS],
    pub weight: [u32; MOST_ORDERS],
}

/// A sheet of the timetable form.
#[repr(C)]
#[derive(Clone, Copy, Debug, PartialEq, Eq)]
pub struct TimetableSheet {
    pub train_count: usize,
    pub capacity: [u32; MOST_TRAINS],
    pub departure: [u32; MOST_TRAINS],
    pub arrival: [u32; MOST_TRAINS],
    pub order_count: usize,
    pub release: [u32; MOST_ORDERS],
    pub due: [u32; MOST_ORDERS],
    pub weight: [u32; MOST_ORDERS],
}

/// The sheet, or the cause beside an empty sheet.
#[repr(C)]
#[derive(Clone, Copy, Debug, PartialEq, Eq)]
pub struct WindowsRead {
    pub cause: Cause,
    pub sheet: WindowSheet,
}

#[repr(C)]
#[derive(Clone, Copy, Debug, PartialEq, Eq)]
pub struct TimetableRead {
    pub cause: Cause,
    pub sheet: TimetableSheet,
}

/// Where a name starts in the text, and how many bytes it has; 0 and 0 if there is none.
#[repr(C)]
#[derive(Clone, Copy, Debug, PartialEq, Eq)]
pub struct NamePlace {
    pub start: usize,
    pub length: usize,
}

/// No search of the sheet lists more pairs than `most`, nor makes more rounds; or the cause beside 0.
#[repr(C)]
#[derive(Clone, Copy, Debug, PartialEq, Eq)]
pub struct Bound {
    pub cause: Cause,
    pub most: usize,
}

/// How many pairs are listed and how many rounds were made, or the cause beside 0 and 0.
#[repr(C)]
#[derive(Clone, Copy, Debug, PartialEq, Eq)]
pub struct Listing {
    pub cause: Cause,
    pub pairs: usize,
    pub rounds: usize,
}

/// Last arrival and worst weighted lateness of the chosen pair, or the cause beside 0 and 0.
#[repr(C)]
#[derive(Clone, Copy, Debug, PartialEq, Eq)]
pub struct Choice {
    pub cause: Cause,
    pub last: u32,
    pub worst: i64,
}

/// A row of a plan made elsewhere: an order and its train, numbered from 1.
#[repr(C)]
#[derive(Clone, Copy, Debug, PartialEq, Eq)]
pub struct Row {
    pub order: u32,
    pub train: u32,
}

/// The checked plan's pair, whether that is listed, how many pairs are and how many rounds were made, or the cause beside noughts.
#[repr(C)]
#[derive(Clone, Copy, Debug, PartialEq, Eq)]
pub struct Check {
    pub cause: Cause,
    pub last: u32,
    pub worst: i64,
    pub listed: bool,
    pub pairs: usize,
    pub rounds: usize,
}

/// A sheet of the window form that is planned anew at a minute, when some of its first trains have left.
#[repr(C)]
#[derive(Clone, Copy, Debug, PartialEq, Eq)]
pub struct WindowsAt {
    pub sheet: WindowSheet,
    pub minute: u32,
}

/// Where a search that is watched stands between two calls. Of each order it has two bytes: its train in the last round, 0 for none, and its latest
/// train. Any numbers may stand in it.
#[repr(C)]
#[derive(Clone, Copy, Debug, PartialEq, Eq)]
pub struct State {
    pub pairs: usize,
    pub rounds: usize,
    pub limit: i64,
    pub last: u32,
    pub ended: u8,
    pub train: [u8; MOST_ORDERS],
    pub latest: [u8; MOST_ORDERS],
}

/// The state before the first round, or the cause beside noughts.
#[repr(C)]
#[derive(Clone, Copy, Debug, PartialEq, Eq)]
pub struct Start {
    pub cause: Cause,
    pub state: State,
}

/// The next state, and whether the search has ended; then how many pairs are listed and how many rounds were made, or the cause beside 0 and 0.
#[repr(C)]
#[derive(Clone, Copy, Debug, PartialEq, Eq)]
pub struct Round {
    pub cause: Cause,
    pub ended: bool,
    pub pairs: usize,
    pub rounds: usize,
    pub state: State,
}

// A slice passes as a pointer, then a length.
#[rustfmt::skip]
extern "C" {
    fn joshkamber_read_windows(text: *const u8, length: usize) -> WindowsRead;
    fn joshkamber_read_timetable(text: *const u8, length: usize) -> TimetableRead;
    fn joshkamber_name_in_windows(text: *const u8, length: usize, order: usize) -> NamePlace;
    fn joshkamber_name_in_timetable(text: *const u8, length: usize, order: usize) -> NamePlace;
    fn joshkamber_bound_windows(sheet: WindowSheet) -> Bound;
    fn joshkamber_bound_timetable(sheet: TimetableSheet) -> Bound;
    fn joshkamber_list_windows(sheet: WindowSheet, pairs: *mut i64, pairs_length: usize) -> Listing;
    fn joshkamber_list_timetable(sheet: TimetableSheet, pairs: *mut i64, pairs_length: usize) -> Listing;
    fn joshkamber_choose_windows(
        sheet: WindowSheet, wish: u32, train_of_order: *mut u8, train_of_order_length: usize, times: *mut u32, times_length: usize,
    ) -> Choice;
    fn joshkamber_choose_timetable(
        sheet: TimetableSheet, wish: u32, train_of_order: *mut u8, train_of_order_length: usize, times: *mut u32, times_length: usize,
    ) -> Choice;
    fn joshkamber_check_windows(
        sheet: WindowSheet, departures: *const u32, departures_length: usize, rows: *const Row, rows_length: usize, pairs: *mut i64, pairs_length: usize,
    ) -> Check;
    fn joshkamber_check_timetable(
        sheet: TimetableSheet, departures: *const u32, departures_length: usize, rows: *const Row, rows_length: usize, pairs: *mut i64, pairs_length: usize,
    ) -> Check;
    fn joshkamber_relist_windows(
        at: WindowsAt, departures: *const u32, departures_length: usize, rows: *const Row, rows_length: usize, pairs: *mut i64, pairs_length: usize,
    ) -> Listing;
    fn joshkamber_rechoose_windows(
        at: WindowsAt, wish: u32, departures: *const u32, departures_length: usize, rows: *const Row, rows_length: usize, train_of_order: *mut u8,
        train_of_order_length: usize, times: *mut u32, times_length: usize,
    ) -> Choice;
    fn joshkamber_start_windows(
        sheet: WindowSheet, pairs: *const i64, pairs_length: usize, train_of_order: *const u8, train_of_order_length: usize, times: *const u32,
        times_length: usize,
    ) -> Start;
    fn joshkamber_start_timetable(
        sheet: TimetableSheet, pairs: *const i64, pairs_length: usize, train_of_order: *const u8, train_of_order_length: usize, times: *const u32,
        times_length: usize,
    ) -> Start;
    fn joshkamber_round_windows(
        state: State, sheet: WindowSheet, pairs: *mut i64, pairs_length: usize, train_of_order: *mut u8, train_of_order_length: usize, times: *mut u32,
        times_length: usize,
    ) -> Round;
    fn joshkamber_round_timetable(
        state: State, sheet: TimetableSheet, pairs: *mut i64, pairs_length: usize, train_of_order: *mut u8, train_of_order_length: usize, times: *mut u32,
        times_length: usize,
    ) -> Round;
    fn joshkamber_look(state: State, pairs: *const i64, pairs_length: usize) -> usize;
}

/// Reads a text of the window form.
pub fn read_windows(text: &[u8]) -> WindowsRead {
    // SAFETY: the pointer is not null and valid for as many bytes; the call only reads them, and keeps nothing.
    unsafe { joshkamber_read_windows(text.as_ptr(), text.len()) }
}

/// Reads a text of the timetable form.
pub fn read_timetable(text: &[u8]) -> TimetableRead {
    // SAFETY: the pointer is not null and valid for as many bytes; the call only reads them, and keeps nothing.
    unsafe { joshkamber_read_timetable(text.as_ptr(), text.len()) }
}

/// The place of an order's name in a text of the window form; orders are numbered from 1.
pub fn name_in_windows(text: &[u8], order: usize) -> NamePlace {
    // SAFETY: the pointer is not null and valid for as many bytes; the call only reads them, and takes any number.
    unsafe { joshkamber_name_in_windows(text.as_ptr(), text.len(), order) }
}

/// The place of an order's name in a text of the timetable form.
pub fn name_in_timetable(text: &[u8], order: usize) -> NamePlace {
    // SAFETY: the pointer is not null and valid for as many bytes; the call only reads them, and takes any number.
    unsafe { joshkamber_name_in_timetable(text.as_ptr(), text.len(), order) }
}

/// How long the list of a sheet of the window form may be; no round is made.
pub fn bound_windows(sheet: &WindowSheet) -> Bound {
    // SAFETY: the call takes the sheet by value, tests it itself, and touches no other memory.
    unsafe { joshkamber_bound_windows(*sheet) }
}

/// The same of a sheet of the timetable form.
pub fn bound_timetable(sheet: &TimetableSheet) -> Bound {
    // SAFETY: as in `bound_windows`.
    unsafe { joshkamber_bound_timetable(*sheet) }
}

/// Lists the pairs of a sheet of the window form. The area has at least two elements for each pair that `bound_windows` tells of.
pub fn list_windows(sheet: &WindowSheet, pairs: &mut [i64]) -> Listing {
    // SAFETY: the pointer is not null, valid for reads and writes of as many elements, and lent for this call alone. The call writes in no
    // other memory, keeps nothing, and tests the sheet and the length itself.
    unsafe { joshkamber_list_windows(*sheet, pairs.as_mut_ptr(), pairs.len()) }
}

/// Lists the pairs of a sheet of the timetable form, with an area as for `list_windows`.
pub fn list_timetable(sheet: &TimetableSheet, pairs: &mut [i64]) -> Listing {
    // SAFETY: as in `list_windows`.
    unsafe { joshkamber_list_timetable(*sheet, pairs.as_mut_ptr(), pairs.len()) }
}

/// Chooses the plan of the last listed pair that is not later than the wished arrival, on a sheet of the window form. For n orders and q
/// trains the areas have at least n and 3 q elements; the windows among those are numbered from 1.
pub fn choose_windows(sheet: &WindowSheet, wish: u32, train_of_order: &mut [u8], times: &mut [u32]) -> Choice {
    // SAFETY: the two pointers are not null, valid for reads and writes of as many elements, and lent for this call alone, so they do not
    // overlap. The call writes in no other memory, keeps nothing, takes any wish, and tests the sheet and the lengths itself.
    unsafe {
        joshkamber_choose_windows(
            *sheet,
            wish,
            train_of_order.as_mut_ptr(),
            train_of_order.len(),
            times.as_mut_ptr(),
            times.len(),
        )
    }
}

/// The same on a sheet of the timetable form, with areas as for `choose_windows`; the windows are 0.
pub fn choose_timetable(sheet: &TimetableSheet, wish: u32, train_of_order: &mut [u8], times: &mut [u32]) -> Choice {
    // SAFETY: as in `choose_windows`.
    unsafe {
        joshkamber_choose_timetable(
            *sheet,
            wish,
            train_of_order.as_mut_ptr(),
            train_of_order.len(),
            times.as_mut_ptr(),
            times.len(),
        )
    }
}

/// Checks a plan made elsewhere, on a sheet of the window form: its departures, train by train, and its rows in any order, with any numbers.
/// The area is as for `list_windows`, and takes the list where the plan is a schedule.
pub fn check_windows(sheet: &WindowSheet, departures: &[u32], rows: &[Row], pairs: &mut [i64]) -> Check {
    // SAFETY: the three pointers are not null and valid for as many elements, the first two for reads; the third is valid for reads and writes and
    // lent for this call alone, so they do not overlap. The call writes in no other memory, keeps nothing, takes any departures and rows, and tests
    // the sheet and the lengths itself.
    unsafe {
        joshkamber_check_windows(
            *sheet,
            departures.as_ptr(),
            departures.len(),
            rows.as_ptr(),
            rows.len(),
            pairs.as_mut_ptr(),
            pairs.len(),
        )
    }
}

/// The same on a sheet of the timetable form.
pub fn check_timetable(sheet: &TimetableSheet, departures: &[u32], rows: &[Row], pairs: &mut [i64]) -> Check {
    // SAFETY: as in `check_windows`.
    unsafe {
        joshkamber_check_timetable(
            *sheet,
            departures.as_ptr(),
            departures.len(),
            rows.as_ptr(),
            rows.len(),
            pairs.as_mut_ptr(),
            pairs.len(),
        )
    }
}

/// Lists the pairs of a sheet that is planned anew behind its first trains, which have left by the minute: one departure for each, and rows of their orders
/// in any order, with any numbers. The area is as for `list_windows`.
pub fn relist_windows(at: &WindowsAt, departures: &[u32], rows: &[Row], pairs: &mut [i64]) -> Listing {
    // SAFETY: the three pointers are not null and valid for as many elements, the first two for reads; the third is valid for reads and writes and
    // lent for this call alone, so they do not overlap. The call writes in no other memory, keeps nothing, takes any minute, departures and rows, and
    // tests the sheet and the lengths itself.
    unsafe {
        joshkamber_relist_windows(
            *at,
            departures.as_ptr(),
            departures.len(),
            rows.as_ptr(),
            rows.len(),
            pairs.as_mut_ptr(),
            pairs.len(),
        )
    }
}

/// Chooses a plan of that list by a wished arrival, with areas as for `choose_windows`, which take the whole plan.
pub fn rechoose_windows(
    at: &WindowsAt,
    wish: u32,
    departures: &[u32],
    rows: &[Row],
    train_of_order: &mut [u8],
    times: &mut [u32],
) -> Choice {
    // SAFETY: the four pointers are not null and valid for as many elements, the first two for reads; the others are valid for reads and writes and
    // lent for this call alone, so they do not overlap. The call writes in no other memory, keeps nothing, takes any minute, wish, departures and rows,
    // and tests the sheet and the lengths itself.
    unsafe {
        joshkamber_rechoose_windows(
            *at,
            wish,
            departures.as_ptr(),
            departures.len(),
            rows.as_ptr(),
            rows.len(),
            train_of_order.as_mut_ptr(),
            train_of_order.len(),
            times.as_mut_ptr(),
            times.len(),
        )
    }
}

/// Starts a search on a sheet of the window form, which is then moved by single rounds. The areas are as for `list_windows` and `choose_windows`; nothing
/// but their lengths is asked for. Each call of a search is given the same sheet, the same areas, and the state that the call before gave back.
pub fn start_windows(sheet: &WindowSheet, pairs: &[i64], train_of_order: &[u8], times: &[u32]) -> Start {
    // SAFETY: the three pointers are not null and valid for as many elements; the call only reads them, keeps nothing, and tests the sheet and the
    // lengths itself.
    unsafe {
        joshkamber_start_windows(
            *sheet,
            pairs.as_ptr(),
            pairs.len(),
            train_of_order.as_ptr(),
            train_of_order.len(),
            times.as_ptr(),
            times.len(),
        )
    }
}

/// The same on a sheet of the timetable form.
pub fn start_timetable(sheet: &TimetableSheet, pairs: &[i64], train_of_order: &[u8], times: &[u32]) -> Start {
    // SAFETY: as in `start_windows`.
    unsafe {
        joshkamber_start_timetable(
            *sheet,
            pairs.as_ptr(),
            pairs.len(),
            train_of_order.as_ptr(),
            train_of_order.len(),
            times.as_ptr(),
            times.len(),
        )
    }
}

/// Moves a search on a sheet of the window form by one round; after the end nothing is changed, and the end is said again. A state, a sheet or areas
/// that are seen not to be those of the search are told as ended with 0 pairs after 0 rounds, and nothing is changed.
pub fn round_windows(
    state: &State,
    sheet: &WindowSheet,
    pairs: &mut [i64],
    train_of_order: &mut [u8],
    times: &mut [u32],
) -> Round {
    // SAFETY: the three pointers are not null, valid for reads and writes of as many elements, and lent for this call alone, so they do not overlap.
    // The call writes in no other memory, keeps nothing, takes any state, and tests the state, the sheet and the lengths itself.
    unsafe {
        joshkamber_round_windows(
            *state,
            *sheet,
            pairs.as_mut_ptr(),
            pairs.len(),
            train_of_order.as_mut_ptr(),
            train_of_order.len(),
            times.as_mut_ptr(),
            times.len(),
        )
    }
}

/// The same on a sheet of the timetable form.
pub fn round_timetable(
    state: &State,
    sheet: &TimetableSheet,
    pairs: &mut [i64],
    train_of_order: &mut [u8],
    times: &mut [u32],
) -> Round {
    // SAFETY: as in `round_windows`.
    unsafe {
        joshkamber_round_timetable(
            *state,
            *sheet,
            pairs.as_mut_ptr(),
            pairs.len(),
            train_of_order.as_mut_ptr(),
            train_of_order.len(),
            times.as_mut_ptr(),
            times.len(),
        )
    }
}

/// How many pairs at the front of the area are recorded so far; 0 if the state counts more than the area holds.
pub fn look(state: &State, pairs: &[i64]) -> usize {
    // SAFETY: the pointer is not null and valid for as many elements; the call only reads them, keeps nothing, and takes any state.
    unsafe { joshkamber_look(*state, pairs.as_ptr(), pairs.len()) }
}
