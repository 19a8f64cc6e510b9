//! Reference runs: the engine, the unchanged Rust and a model of documents 01 and 02 on the same lists.

pub mod boundary;
pub mod calendars;
pub mod compare;
pub mod damage;
#[cfg(has_rust)]
pub mod departures;
pub mod engine;
pub mod exhaustive;
pub mod generate;
pub mod graphs;
pub mod indexes;
pub mod inputs;
pub mod list;
pub mod loading;
pub mod many;
pub mod members;
pub mod model;
pub mod network;
pub mod program;
pub mod questions;
pub mod rings;
pub mod rng;
#[cfg_attr(not(has_rust), path = "no_rust.rs")]
pub mod rust;
#[cfg(has_rust)]
pub mod sample;
pub mod shrink;
pub mod slips;
pub mod sorted;
pub mod tables;
pub mod tally;
pub mod windows;
pub mod withdrawing;
pub mod writing;
