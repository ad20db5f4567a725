//! Inputs: valid, with one thing wrong, damaged, and at the limits.

pub mod feeders;
pub mod lines;
pub mod lists;
pub mod logs;
pub mod masks;
pub mod messages;
pub mod streams;
pub mod tables;
pub mod words;
