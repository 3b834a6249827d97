//! The independent implementation against document 01's cases, the stored sheets, the rounds word for word and the listing.

mod areas;
mod bound;
mod checking;
mod choosing;
mod gone;
mod judge;
mod listing;
mod memory;
mod printing;
mod prompt;
mod reached;
mod reading;
mod replanning;
mod rounds;
mod schedules;
mod short;
mod stored_gone;
mod watching;
mod windows;
