//! The Rust's committee.rs, range_map.rs, types.rs, threshold_clock.rs and finalization_interpreter.rs, compiled unchanged, with
//! stand-ins for what they lean on: metrics and WAL give way to a map by reference, digests are set from the record.

/// Whether the five files were there when this was built.
pub const PRESENT: bool = cfg!(has_rust);

/// The interpreter prints each round; the runs do without.
#[allow(unused_macros)]
macro_rules! println {
    ($($text:tt)*) => {};
}

#[cfg(has_rust)]
include!(concat!(env!("OUT_DIR"), "/modules.rs"));

#[cfg(has_rust)]
pub mod block_store;
#[cfg(has_rust)]
pub mod config;
#[cfg(has_rust)]
pub mod crypto;
#[cfg(has_rust)]
pub mod data;
#[cfg(has_rust)]
pub mod make;
