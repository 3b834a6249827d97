//! The product against the independent implementation: random sheets, sheets spoiled in memory, damaged texts, plans from elsewhere, searches by single
//! rounds, planning anew behind trains that have gone, stored sheets, of each of these full ones and ones with places to spare; and against the listing
//! of every loading and of every schedule.

mod bounding;
mod by_hand;
mod cause;
mod checked;
mod checking;
mod chosen;
mod filled;
mod foretold;
mod ladders;
mod lengths;
mod listed;
mod listing;
mod places;
mod planning;
mod printing;
mod prompt;
mod replanned;
mod replanning;
mod share;
mod size;
mod spoil;
mod states;
mod stored_gone;
mod texts;
mod watched;
mod watching;
