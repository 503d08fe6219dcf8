//! The library under test and an independent implementation, side by side.
//!
//! `model` is the independent implementation; `library` calls the library through its C interface; `check` makes one call of
//! each, in `guarded` buffers, and says what differs. `messages` and `tables` make what they are called with, out of `noise`. `promises` reads the sources.

pub mod check;
pub mod guarded;
pub mod header;
pub mod library;
pub mod messages;
pub mod model;
pub mod noise;
pub mod promises;
pub mod tables;
