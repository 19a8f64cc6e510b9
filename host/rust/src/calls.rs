//! The calls of `lomkhvide.h`, each declared once: safe functions over lent slices.
//!
//! Everything else in this crate is made of them. A slice is lent for the call alone; the borrow checker sees to it that one that is written
//! overlaps no other. Nothing is kept between calls, so they may be made from several threads at once.
//!
//! ```
//! use lomkhvide::{Refusal, calls};
//!
//! assert_eq!(calls::new_committee(&[1, 0, 0, 0, 0, 0, 0, 0]), Ok(1));
//! assert_eq!(calls::new_committee(&[]), Err(Refusal::NoStakes));
//! ```

use crate::Refusal;

/// Hands the list of all calls to a macro: a name, its symbol, what it is lent, and the most stack that it needs, in KB. Numbers cross as they
/// are, bytes as a pointer and their number, words (8-byte aligned) as a pointer and the number of words.
#[doc(hidden)]
#[macro_export]
macro_rules! each_call {
    ($made:ident) => {
        $made! {
            new_committee = lomkhvide_new_committee(stakes: &[u8]) stack 2;
            load_stakes = lomkhvide_load_stakes(file: &[u8], stakes: &mut [u8]) stack 32;
            is_quorum = lomkhvide_is_quorum(total: u64, amount: u64) stack 1;
            is_valid = lomkhvide_is_valid(total: u64, amount: u64) stack 1;
            add = lomkhvide_add(stakes: &[u8], aggregator: &mut [u8], voter: u64) stack 2;

            feed = lomkhvide_feed(stakes: &[u8], store: &mut [u8], table: &mut [u8], events: &mut [u8], record: &[u8]) stack 256;
            feed_records = lomkhvide_feed_records(
                stakes: &[u8], store: &mut [u8], table: &mut [u8], events: &mut [u64], outcomes: &mut [u64], records: &[u8]
            ) stack 128;
            feed_indexed = lomkhvide_feed_indexed(
                stakes: &[u8], store: &mut [u8], table: &mut [u8], index: &mut [u64], events: &mut [u8], record: &[u8]
            ) stack 320;
            feed_records_indexed = lomkhvide_feed_records_indexed(
                stakes: &[u8], store: &mut [u8], table: &mut [u8], index: &mut [u64], events: &mut [u64], outcomes: &mut [u64],
                records: &[u8]
            ) stack 256;
            pending_stake = lomkhvide_pending_stake(stakes: &[u8], store: &[u8], table: &[u8], locator: &[u8]) stack 96;
            pending_voters = lomkhvide_pending_voters(stakes: &[u8], store: &[u8], table: &[u8], locator: &[u8]) stack 96;
            whom_to_ring = lomkhvide_whom_to_ring(
                stakes: &[u8], store: &[u8], table: &[u8], reachable_low: u64, reachable_high: u64, locator: &[u8], found: &mut [u8]
            ) stack 96;
            fewest_owners = lomkhvide_fewest_owners(
                stakes: &[u8], voters_low: u64, voters_high: u64, reachable_low: u64, reachable_high: u64, found: &mut [u8]
            ) stack 4;

            finality = lomkhvide_finality(stakes: &[u8], store: &[u8], positions: &mut [u8], locator: &[u8]) stack 96;
            finality_withdrawing = lomkhvide_finality_withdrawing(
                stakes: &[u8], store: &[u8], positions: &mut [u8], locator: &[u8]
            ) stack 96;
            next_final = lomkhvide_next_final(stakes: &[u8], store: &[u8], after: &[u8], found: &mut [u8]) stack 496;
            next_wide = lomkhvide_next_wide(stakes: &[u8], store: &[u8], after: &[u8], found: &mut [u8]) stack 496;
            next_final_withdrawing = lomkhvide_next_final_withdrawing(
                stakes: &[u8], store: &[u8], after: &[u8], found: &mut [u8]
            ) stack 496;
            next_wide_withdrawing = lomkhvide_next_wide_withdrawing(
                stakes: &[u8], store: &[u8], after: &[u8], found: &mut [u8]
            ) stack 496;
            final_stretches = lomkhvide_final_stretches(stakes: &[u8], store: &[u8], after: &[u8], stretches: &mut [u8]) stack 496;
            wide_stretches = lomkhvide_wide_stretches(stakes: &[u8], store: &[u8], after: &[u8], stretches: &mut [u8]) stack 496;
            final_stretches_withdrawing = lomkhvide_final_stretches_withdrawing(
                stakes: &[u8], store: &[u8], after: &[u8], stretches: &mut [u8]
            ) stack 496;
            wide_stretches_withdrawing = lomkhvide_wide_stretches_withdrawing(
                stakes: &[u8], store: &[u8], after: &[u8], stretches: &mut [u8]
            ) stack 496;
            final_stretches_indexed = lomkhvide_final_stretches_indexed(
                stakes: &[u8], store: &[u8], index: &[u64], after: &[u8], stretches: &mut [u8]
            ) stack 496;
            wide_stretches_indexed = lomkhvide_wide_stretches_indexed(
                stakes: &[u8], store: &[u8], index: &[u64], after: &[u8], stretches: &mut [u8]
            ) stack 496;
            answer_sorted = lomkhvide_answer_sorted(
                stakes: &[u8], store: &[u8], index: &[u64], locators: &[u8], replies: &mut [u64]
            ) stack 160;

            payload_length = lomkhvide_payload_length(stakes: &[u8], store: &[u8], locator: &[u8]) stack 32;
            payload_start = lomkhvide_payload_start(stakes: &[u8], store: &[u8], locator: &[u8]) stack 32;
            is_loadable = lomkhvide_is_loadable(stakes: &[u8], store: &[u8], locator: &[u8]) stack 496;
            loadable = lomkhvide_loadable(stakes: &[u8], store: &[u8], places: &mut [u64]) stack 496;
            is_loadable_withdrawing = lomkhvide_is_loadable_withdrawing(stakes: &[u8], store: &[u8], locator: &[u8]) stack 496;
            loadable_withdrawing = lomkhvide_loadable_withdrawing(stakes: &[u8], store: &[u8], places: &mut [u64]) stack 496;

            write_slip = lomkhvide_write_slip(stakes: &[u8], store: &[u8], locator: &[u8], out: &mut [u8]) stack 480;
            write_slip_withdrawing = lomkhvide_write_slip_withdrawing(
                stakes: &[u8], store: &[u8], locator: &[u8], out: &mut [u8]
            ) stack 480;
            read_slip = lomkhvide_read_slip(stakes: &[u8], slip: &[u8], records: &[u8]) stack 32;

            write_record = lomkhvide_write_record(
                author: u64, round: u64, digest: &[u8], mark: u64, includes: &[u8], statements: &[u8], out: &mut [u8]
            ) stack 2;
            write_timed_record = lomkhvide_write_timed_record(
                author: u64, round: u64, digest: &[u8], mark: u64, time: u64, includes: &[u8], statements: &[u8], out: &mut [u8]
            ) stack 2;
            creation_time = lomkhvide_creation_time(stakes: &[u8], store: &[u8], reference: &[u8], found: &mut [u8]) stack 24;

            is_open = lomkhvide_is_open(calendar: &[u8], time: u64) stack 2;
            next_open = lomkhvide_next_open(calendar: &[u8], time: u64, found: &mut [u8]) stack 2;
        }
    };
}

/// The version of the calls that this crate is written for: `LOMKHVIDE_CALLS` of `lomkhvide.h`. It is raised where bytes or numbers of a call
/// change that was there before.
pub const VERSION: u64 = 2;

/// Enough stack for every call, in bytes: `LOMKHVIDE_STACK` of `lomkhvide.h`.
pub const STACK: usize = 524_288;

/// Below 2^63 a word is the answer, and 2^63 + n is refusal n.
pub(crate) fn answer(word: u64) -> Result<u64, Refusal> {
    if word >> 63 == 0 { Ok(word) } else { Err(Refusal::from_number(word & (u64::MAX >> 1))) }
}

// The archive, which build.rs finds.
#[link(name = "host", kind = "static")]
unsafe extern "C" {}

/// Declares each call and makes a safe function of it: what it is lent is taken one by one, and with it grow the parameters of the
/// declaration and the values that cross.
macro_rules! declared {
    ($($name:ident = $symbol:ident($($lent:tt)*) stack $kb:literal;)*) => {
        /// The most stack that each call needs, in bytes, as the table of `lomkhvide.h` has it.
        pub const STACKS: &[(&str, usize)] = &[$((stringify!($name), 1024 * $kb)),*];

        /// A sentence about the stack of a call, for the documentation of what makes it.
        macro_rules! stack {
            $(($name) => { concat!("It needs at most ", $kb, " KB of stack.") };)*
        }

        $(declared! { $name $symbol $kb [$($lent)*] [] [] $($lent)*, })*
    };
    ($name:ident $symbol:ident $kb:literal [$($lent:tt)*] [$($parameters:tt)*] [$($values:tt)*] $(,)?) => {
        #[doc = concat!("`", stringify!($symbol), "`: see `lomkhvide.h`. It needs at most ", $kb, " KB of stack.")]
        // As many as the header has.
        #[allow(clippy::too_many_arguments)]
        pub fn $name($($lent)*) -> Result<u64, Refusal> {
            unsafe extern "C" {
                fn $symbol($($parameters)*) -> u64;
            }
            // SAFETY: the parameters are those of lomkhvide.h. Each slice is a pointer that is not null with its own length, aligned
            // as its items are, borrowed for the call alone, and for writing exactly where the call may write; the call keeps none.
            answer(unsafe { $symbol($($values)*) })
        }
    };
    ($name:ident $symbol:ident $kb:literal $lent:tt [$($parameters:tt)*] [$($values:tt)*] $slice:ident: &[$item:ident], $($rest:tt)*) => {
        declared! {
            $name $symbol $kb $lent
            [$($parameters)* _: *const $item, _: usize,] [$($values)* $slice.as_ptr(), $slice.len(),]
            $($rest)*
        }
    };
    ($name:ident $symbol:ident $kb:literal $lent:tt [$($parameters:tt)*] [$($values:tt)*] $slice:ident: &mut [$item:ident], $($rest:tt)*) => {
        declared! {
            $name $symbol $kb $lent
            [$($parameters)* _: *mut $item, _: usize,] [$($values)* $slice.as_mut_ptr(), $slice.len(),]
            $($rest)*
        }
    };
    ($name:ident $symbol:ident $kb:literal $lent:tt [$($parameters:tt)*] [$($values:tt)*] $number:ident: u64, $($rest:tt)*) => {
        declared! { $name $symbol $kb $lent [$($parameters)* _: u64,] [$($values)* $number,] $($rest)* }
    };
}

each_call!(declared);

pub(crate) use stack;

#[cfg(test)]
mod tests {
    use super::*;

    fn header() -> String {
        std::fs::read_to_string(concat!(env!("CARGO_MANIFEST_DIR"), "/../include/lomkhvide.h")).unwrap()
    }

    /// The lines `X(NAME, KB)` of the header's table are the list above, in its order.
    #[test]
    fn stacks_of_the_header() {
        let header = header();
        let line = |line: &str| {
            let (name, rest) = line.trim().strip_prefix("X(")?.split_once(", ")?;
            let kb: usize = rest.split_once(')')?.0.parse().ok()?;
            Some((name.to_string(), 1024 * kb))
        };
        let listed: Vec<(String, usize)> = header.lines().filter_map(line).collect();
        let table: Vec<(String, usize)> = STACKS.iter().map(|(name, most)| (name.to_string(), *most)).collect();
        assert_eq!(listed, table);
        assert!(STACKS.iter().all(|(_, most)| *most <= STACK));
    }

    #[test]
    fn constants_of_the_header() {
        let header = header();
        assert!(header.contains(&format!("#define LOMKHVIDE_CALLS {VERSION}\n")));
        assert!(header.contains(&format!("#define LOMKHVIDE_STACK ((size_t){STACK})\n")));
    }

    /// What a function of the header is lent, as the list writes it.
    fn lent(parameters: &str) -> String {
        let words: Vec<&str> = parameters.split_whitespace().collect();
        let text = words.join(" ");
        let mut lent = Vec::new();
        for parameter in text.split(", ").filter(|parameter| !parameter.starts_with("size_t ")) {
            let (sort, name) = parameter.rsplit_once([' ', '*']).unwrap();
            let sort = match sort.trim_end() {
                "const uint8_t" => "&[u8]",
                "uint8_t" => "&mut [u8]",
                "const uint64_t" => "&[u64]",
                "uint64_t" if parameter.contains('*') => "&mut [u64]",
                "uint64_t" => "u64",
                other => panic!("{other}"),
            };
            let length = format!("{name}, size_t {name}_len");
            assert_eq!(
                text.contains(&length),
                sort != "u64",
                "a slice is followed by its length, and no number is: {parameter}"
            );
            lent.push(format!("{name}: {sort}"));
        }
        lent.join(", ")
    }

    macro_rules! listed {
        ($($name:ident = $symbol:ident($($lent:ident: $sort:ty),*) stack $kb:literal;)*) => {
            vec![$((stringify!($symbol).to_string(), [$(concat!(stringify!($lent), ": ", stringify!($sort))),*].join(", "))),*]
        };
    }

    /// Every function that the header declares is in the list, with the same parameters in the same order, and no other.
    #[test]
    fn calls_of_the_header() {
        let header = header();
        let function = |rest: &str| {
            let (name, rest) = rest.split_once('(').unwrap();
            (format!("lomkhvide_{name}"), lent(rest.split_once(");").unwrap().0))
        };
        let mut declared: Vec<(String, String)> = header.split("\nuint64_t lomkhvide_").skip(1).map(function).collect();
        let mut listed: Vec<(String, String)> = each_call!(listed);
        // How a type is spaced is the compiler's.
        listed.iter_mut().for_each(|(_, lent)| *lent = lent.replace("& ", "&"));
        assert!(listed.iter().zip(STACKS).all(|((symbol, _), (name, _))| *symbol == format!("lomkhvide_{name}")));
        declared.sort();
        listed.sort();
        assert_eq!(declared, listed);
    }
}
