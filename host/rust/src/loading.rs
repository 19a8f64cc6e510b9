//! What a station may load, and the payloads, over a store that the caller lends.

use crate::calls::stack;
use crate::{Committee, Locator, Reading, Refusal, calls};

impl Committee {
    /// A stored share's payload, as the part of the store that holds it; or 5, 10, 41.
    #[doc = stack!(payload_start)]
    ///
    /// ```
    /// # use lomkhvide::*;
    /// // One owner, who has shared a change in round 1.
    /// let Sample { committee, store, share, .. } = sample();
    /// assert_eq!(committee.payload(&store, &share)?, b"gain");
    /// # Ok::<(), Refusal>(())
    /// ```
    pub fn payload<'a>(&self, store: &'a [u8], locator: &Locator) -> Result<&'a [u8], Refusal> {
        let locator = locator.to_bytes();
        let start = calls::payload_start(self.stakes(), store, &locator)? as usize;
        let length = calls::payload_length(self.stakes(), store, &locator)? as usize;
        Ok(&store[start..start + length])
    }

    /// Whether the locator names a loadable stored share: one that is final in a reading and whose needed change, if any, is loadable; or 5, 10.
    #[doc = stack!(is_loadable_withdrawing)]
    ///
    /// ```
    /// # use lomkhvide::*;
    /// // One owner, who has shared a change in round 1.
    /// let Sample { committee, store, share, .. } = sample();
    /// assert!(committee.is_loadable(&store, &share, Reading::Old)?);
    /// # Ok::<(), Refusal>(())
    /// ```
    pub fn is_loadable(&self, store: &[u8], locator: &Locator, reading: Reading) -> Result<bool, Refusal> {
        let call = match reading {
            Reading::Old => calls::is_loadable,
            Reading::Withdrawing => calls::is_loadable_withdrawing,
        };
        Ok(call(self.stakes(), store, &locator.to_bytes())? == 1)
    }

    /// The number of loadable stored shares in a reading, which are written to the front of `places` in ascending order, two words each: the position of
    /// the block's entry in the store, and the offset; or 5, 10, 58 for fewer places than stored shares.
    #[doc = stack!(loadable_withdrawing)]
    ///
    /// ```
    /// # use lomkhvide::*;
    /// // One owner, who has shared a change in round 1.
    /// let Sample { committee, store, .. } = sample();
    /// let mut places = [0; 2];
    /// assert_eq!(committee.loadable(&store, Reading::Old, &mut places)?, 1);
    /// assert_eq!(places, [80, 0]);
    /// # Ok::<(), Refusal>(())
    /// ```
    pub fn loadable(&self, store: &[u8], reading: Reading, places: &mut [u64]) -> Result<usize, Refusal> {
        let call = match reading {
            Reading::Old => calls::loadable,
            Reading::Withdrawing => calls::loadable_withdrawing,
        };
        Ok(call(self.stakes(), store, places)? as usize)
    }
}
