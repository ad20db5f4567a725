//! Core and model on the same inputs.

pub mod bans;
pub mod feeding;
pub mod lines;
pub mod log;
pub mod replaying;
pub mod tables;
pub mod taking;
pub mod texts;
