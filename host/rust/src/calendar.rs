//! The blast calendar.

use crate::calls::stack;
use crate::memory::bytes_of;
use crate::{Refusal, calls};

/// A window of a blast calendar: start and end (excluded) in seconds of the week, which begins on Monday at 0:00.
///
/// ```
/// let window = lomkhvide::Window { start: 36_000, end: 37_800 };
/// assert!(window.start < window.end);
/// ```
#[derive(Clone, Copy, Debug, PartialEq, Eq)]
pub struct Window {
    /// The first second in which nothing may be loaded.
    pub start: u64,
    /// The first one after it.
    pub end: u64,
}

/// A blast calendar as it crosses; each call checks it anew.
///
/// ```
/// use lomkhvide::{Calendar, Refusal, Window};
///
/// // Mondays from 10:00 to 10:30.
/// let calendar = Calendar::new(&[Window { start: 36_000, end: 37_800 }]);
/// let monday = 345_600;
/// assert!(!calendar.is_open(monday + 36_000)?);
/// assert_eq!(calendar.next_open(monday + 36_000)?, Some(monday + 37_800));
/// # Ok::<(), Refusal>(())
/// ```
#[derive(Clone, Debug, PartialEq, Eq)]
pub struct Calendar {
    bytes: Vec<u8>,
}

impl Calendar {
    /// A calendar of these windows.
    ///
    /// ```
    /// assert_eq!(lomkhvide::Calendar::new(&[]).is_open(0), Ok(true));
    /// ```
    pub fn new(windows: &[Window]) -> Calendar {
        Calendar::from_bytes(windows.iter().flat_map(|window| bytes_of(&[window.start, window.end])).collect())
    }

    /// A calendar of bytes as they cross.
    ///
    /// ```
    /// use lomkhvide::{Calendar, Refusal};
    ///
    /// assert_eq!(Calendar::from_bytes(vec![0; 8]).is_open(0), Err(Refusal::BrokenCalendar), "half a window");
    /// ```
    pub fn from_bytes(bytes: Vec<u8>) -> Calendar {
        Calendar { bytes }
    }

    /// The bytes as which it crosses.
    ///
    /// ```
    /// use lomkhvide::{Calendar, Window};
    ///
    /// assert_eq!(Calendar::new(&[Window { start: 0, end: 1 }]).as_bytes().len(), 16);
    /// ```
    pub fn as_bytes(&self) -> &[u8] {
        &self.bytes
    }

    /// Whether loading is open at a time, in seconds since 1970; or 59.
    #[doc = stack!(is_open)]
    ///
    /// ```
    /// use lomkhvide::{Calendar, Window};
    ///
    /// let always = Window { start: 0, end: 604_800 };
    /// assert_eq!(Calendar::new(&[always]).is_open(0), Ok(false));
    /// ```
    pub fn is_open(&self, time: u64) -> Result<bool, Refusal> {
        Ok(calls::is_open(&self.bytes, time)? == 1)
    }

    /// The first open second at or after a time, or none; or 59.
    #[doc = stack!(next_open)]
    ///
    /// ```
    /// use lomkhvide::{Calendar, Window};
    ///
    /// let always = Window { start: 0, end: 604_800 };
    /// assert_eq!(Calendar::new(&[always]).next_open(0), Ok(None));
    /// ```
    pub fn next_open(&self, time: u64) -> Result<Option<u64>, Refusal> {
        let mut found = [0; 8];
        let is_found = calls::next_open(&self.bytes, time, &mut found)? == 1;
        Ok(is_found.then(|| u64::from_le_bytes(found)))
    }
}
