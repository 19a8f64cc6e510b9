//! The engine's side: the calls of host/include/lomkhvide.h and nothing else, as the host's crate declares them.

use crate::model::writing::Given;

/// An answer, or the number of a refusal.
pub type Answer = Result<u64, u64>;

/// Makes a function of each call that answers the bare number of a refusal.
macro_rules! answered {
    ($($name:ident = $symbol:ident($($lent:ident: $sort:ty),*) stack $kb:literal;)*) => {
        mod bare {
            $(pub fn $name($($lent: $sort),*) -> super::Answer {
                lomkhvide::calls::$name($($lent),*).map_err(lomkhvide::Refusal::number)
            })*
        }
    };
}

lomkhvide::each_call!(answered);

pub use bare::*;

// Those whose arguments are put together here.

pub fn is_quorum(total: u64, amount: u64) -> bool {
    bare::is_quorum(total, amount) == Ok(1)
}

pub fn is_valid(total: u64, amount: u64) -> bool {
    bare::is_valid(total, amount) == Ok(1)
}

/// With a time, the call that takes one.
pub fn write_record(given: &Given, out: &mut [u8]) -> Answer {
    let Given { author, round, digest, mark, time, includes, statements } = given;
    match time {
        Some(time) => bare::write_timed_record(*author, *round, digest, *mark, *time, includes, statements, out),
        None => bare::write_record(*author, *round, digest, *mark, includes, statements, out),
    }
}

pub fn whom_to_ring(stakes: &[u8], store: &[u8], table: &[u8], reachable: u128, locator: &[u8], found: &mut [u8]) -> Answer {
    bare::whom_to_ring(stakes, store, table, reachable as u64, (reachable >> 64) as u64, locator, found)
}
