//! Refusals: the number of each, and a sentence for people.

use std::error::Error;
use std::fmt;

/// Makes the enum from its table: number, name, sentence.
macro_rules! refusals {
    ($($number:literal $name:ident $sentence:literal,)*) => {
        /// Why the engine refused a call. A refused call has changed nothing.
        ///
        /// The sentences are those of the list of refusals in `lomkhvide.h`.
        ///
        /// ```
        /// use lomkhvide::{Committee, Refusal, Stake};
        ///
        /// let refusal = Committee::new(&[5, 0, 3].map(Stake)).unwrap_err();
        /// assert_eq!(refusal, Refusal::ZeroStake);
        /// assert_eq!(refusal.number(), 2);
        /// assert_eq!(refusal.to_string(), "a stake of the committee is zero (2)");
        /// ```
        #[derive(Clone, Copy, Debug, PartialEq, Eq, Hash)]
        #[non_exhaustive]
        pub enum Refusal {
            $(#[doc = concat!(stringify!($number), ": ", $sentence, ".")] $name,)*
            /// A number that this crate does not know: the archive is a later one.
            Other(u64),
        }

        impl Refusal {
            /// Every refusal, in ascending order of number.
            ///
            /// ```
            /// use lomkhvide::Refusal;
            ///
            /// assert!(Refusal::ALL.is_sorted_by_key(|refusal| refusal.number()));
            /// ```
            pub const ALL: &'static [Refusal] = &[$(Refusal::$name),*];

            /// The refusal of a number.
            ///
            /// ```
            /// use lomkhvide::Refusal;
            ///
            /// assert_eq!(Refusal::from_number(30), Refusal::IncludeNotStored);
            /// assert_eq!(Refusal::from_number(99), Refusal::Other(99));
            /// ```
            pub fn from_number(number: u64) -> Refusal {
                match number {
                    $($number => Refusal::$name,)*
                    other => Refusal::Other(other),
                }
            }

            /// Its number.
            ///
            /// ```
            /// use lomkhvide::Refusal;
            ///
            /// assert_eq!(Refusal::StoreFull.number(), 13);
            /// ```
            pub fn number(self) -> u64 {
                match self {
                    $(Refusal::$name => $number,)*
                    Refusal::Other(number) => number,
                }
            }

            /// What is wrong, in a sentence without its full stop.
            ///
            /// ```
            /// use lomkhvide::Refusal;
            ///
            /// assert_eq!(Refusal::StoreFull.sentence(), "the store is full");
            /// ```
            pub fn sentence(self) -> &'static str {
                match self {
                    $(Refusal::$name => $sentence,)*
                    Refusal::Other(_) => "a refusal that this crate does not know",
                }
            }
        }
    };
}

refusals! {
    1 NoStakes "the committee has no stakes",
    2 ZeroStake "a stake of the committee is zero",
    3 TooManyMembers "the committee has more than 128 members",
    4 TotalTooLarge "the total stake is over 2^63 - 1",
    5 BrokenCommittee "the stakes are no committee",
    6 BrokenAggregator "the aggregator has unknown voters, or a stake that is not their sum",
    10 StoreNotInOrder "the store is not in order",
    11 TableNotInOrder "the pending table is not in order",
    12 WorkTooShort "the work slice is shorter than the pending table",
    13 StoreFull "the store is full",
    14 TableFull "the pending table is full",
    15 EventsTooShort "the slice for events is too short",
    20 Malformed "the record, locator or reference is malformed",
    21 UnknownAuthor "the author is not in the committee",
    22 RoundZeroNotEmpty "a block of round 0 has includes or statements",
    23 StoredAlready "a block of that reference is stored already",
    24 UnknownIncludeAuthor "the author of an include is not in the committee",
    25 IncludeRoundNotLower "the round of an include is not lower than the block's",
    26 RangeEndBelowStart "the end of a range is below its start",
    27 RangeEndTooLarge "the end of a range is 1,048,576 or more",
    28 AcceptOffsetTooLarge "the offset of an accept is 2^64 - 1",
    29 ClockNotMet "the authors of the includes of the round before do not hold quorum",
    30 IncludeNotStored "an include is not stored",
    40 AnswerSlice "a slice for the answer has another length than the call asks for",
    41 NoSuchShare "no such share is stored",
    42 NotPending "the locator is not pending",
    50 TooShortToWrite "the slice to be written is too short",
    51 NotWritable "no record has that form",
    52 SlipNotHeld "the slip does not hold or is of another form, or none can be written since the locator is not final",
    53 SlipRecordMissing "a record that the slip names is missing",
    54 IndexDisagrees "the index disagrees with the store",
    55 IndexTooShort "the index is too short for the block's part",
    56 StakesFileBroken "the file of stakes is broken",
    57 StakesFileName "a name in the file of stakes is bad or comes twice",
    58 PlacesTooShort "the slice for the list has fewer places than there are stored shares",
    59 BrokenCalendar "the blast calendar has too many windows, or one that is empty, overlaps, or is out of order or range",
    60 QuorumOutOfReach "all who can be reached miss quorum together with the voters",
    61 SlipReadingUnknown "the first byte of the slip names no reading",
    62 LocatorsNotSorted "the locators are not sorted, or not whole",
    63 RepliesTooShort "the slice for replies is too short",
    64 OutcomesTooShort "the slice for outcomes has fewer words than there are records",
}

/// The sentence, and the number in brackets.
impl fmt::Display for Refusal {
    fn fmt(&self, f: &mut fmt::Formatter) -> fmt::Result {
        write!(f, "{} ({})", self.sentence(), self.number())
    }
}

impl Error for Refusal {}

#[cfg(test)]
mod tests {
    use super::*;

    #[test]
    fn numbers() {
        for number in 0..200 {
            let refusal = Refusal::from_number(number);
            assert_eq!(refusal.number(), number);
            assert_eq!(Refusal::ALL.contains(&refusal), !matches!(refusal, Refusal::Other(_)));
        }
    }

    /// The lines `X(NUMBER, "SENTENCE")` of the header's list are the table above, in its order.
    #[test]
    fn sentences_of_the_header() {
        let path = concat!(env!("CARGO_MANIFEST_DIR"), "/../include/lomkhvide.h");
        let header = std::fs::read_to_string(path).unwrap();
        let line = |line: &str| {
            let (number, rest) = line.trim().strip_prefix("X(")?.split_once(", \"")?;
            Some((number.parse().ok()?, rest.split_once("\")")?.0.to_string()))
        };
        let listed: Vec<(u64, String)> = header.lines().filter_map(line).collect();
        let table: Vec<(u64, String)> = Refusal::ALL.iter().map(|r| (r.number(), r.sentence().to_string())).collect();
        assert_eq!(listed, table);
    }
}
