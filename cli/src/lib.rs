//! What the command `birdweekly` is made of: scenarios in words, over the safe crate of the engine.

pub mod check;
pub mod draw;
pub mod effects;
pub mod explain;
pub mod faults;
pub mod forms;
pub mod json;
pub mod listing;
pub mod reasons;
pub mod rehearsal;
pub mod scenario;
pub mod show;
pub mod source;
pub mod text;
pub mod words;
