//! The engine's calls for a host in Rust: safe functions over the calls of `lomkhvide.h`.
#![doc = include_str!("../README.md")]
#![warn(missing_docs)]

pub mod calls;

mod calendar;
mod committee;
mod engine;
mod feeding;
mod finality;
mod loading;
mod memory;
mod names;
mod numbers;
mod pending;
mod record;
mod refusal;
mod sample;
mod slip;
#[cfg(test)]
mod tests;

pub use calendar::{Calendar, Window};
pub use committee::{Aggregator, Committee, Vote, is_quorum, is_valid};
pub use engine::{Engine, Finals, Parts, PendingItem};
pub use feeding::{Event, Fed, Outcome};
pub use finality::{Finality, Listed, Reading, Reply, Stretch, Stretches};
pub use memory::{bytes_of, fresh_index, fresh_store, fresh_table, words_of};
pub use names::{Locator, NotALocator, NotAReference, Reference};
pub use numbers::{AuthorityIndex, Owners, RoundNumber, Stake};
pub use pending::{Pending, Ring};
pub use record::{Record, RecordBuilder, Statement, Statements};
pub use refusal::Refusal;
#[doc(hidden)]
pub use sample::{Sample, sample};
pub use slip::{Certifier, Slip, Voter};
