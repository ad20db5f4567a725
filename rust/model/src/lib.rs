//! The relay's rules in plain Rust, written from document 01 and, for what was added, from document
//! 02, and from nothing else.
//!
//! The proved core is compared with this model. So nothing here is taken from the core's source or
//! its definitions, and where two ways were open the one nearer to the paper's words was taken.
//! Where the paper can be read two ways, the model follows `docs/DECISIONS.md`.

#![forbid(unsafe_code)]

pub mod bans;
pub mod bmask;
pub mod channel;
pub mod feeder;
pub mod journal;
pub mod line;
pub mod mask;
pub mod modes;
pub mod names;
pub mod plain;
pub mod refusal;
pub mod relay;
pub mod replay;
pub mod sjoin;
pub mod table;

pub use bans::BanList;
pub use channel::{Member, Record, WholeRecord};
pub use feeder::Feeder;
pub use refusal::{Fault, Refusal};
pub use table::Table;
