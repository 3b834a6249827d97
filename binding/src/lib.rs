//! The product behind safe functions (`calls`), and what it takes to compare it with the independent implementation.

pub mod areas;
pub mod calls;
pub mod exported;
pub mod product;
