//! The names of blocks and of what stands in them: references and locators, as bytes and as text.
//!
//! Everywhere in this crate the round stands before the author, as names are printed and ordered. In bytes the author comes first.

use std::error::Error;
use std::fmt;
use std::str::FromStr;

use crate::memory::word_at;
use crate::{AuthorityIndex, RoundNumber};

/// How many bytes of a digest are printed in short.
const SHORT: usize = 4;

/// Names a block: its round, its author and its digest. References are ordered so.
///
/// As text it is `ROUND/AUTHOR/DIGEST`. The digest is written with its first 8 hexadecimal digits where all that follow are zero, as in the
/// examples of the course, and else with all 64, so that the text is read back as the same reference. `{:#}` prints the first 8 digits whatever
/// follows, as `listing` does: for people, since blocks can have them in common.
///
/// ```
/// use lomkhvide::{AuthorityIndex, Reference, RoundNumber};
///
/// let mut digest = [0; 32];
/// digest[3] = 5;
/// let block = Reference::new(RoundNumber(1), AuthorityIndex(0), digest);
/// assert_eq!(block.to_string(), "1/0/00000005");
/// assert_eq!("1/0/00000005".parse(), Ok(block));
///
/// let other = Reference { digest: [7; 32], ..block };
/// assert_eq!(other.to_string().parse(), Ok(other));
/// assert_eq!(other.to_string().len(), 4 + 64);
/// assert_eq!(format!("{other:#}"), "1/0/07070707");
/// assert!(block < other);
/// ```
#[derive(Clone, Copy, Debug, PartialEq, Eq, PartialOrd, Ord, Hash)]
pub struct Reference {
    /// The block's round.
    pub round: RoundNumber,
    /// The owner who made it.
    pub author: AuthorityIndex,
    /// Its digest, as given.
    pub digest: [u8; 32],
}

impl Reference {
    /// The reference of a block.
    ///
    /// ```
    /// use lomkhvide::{AuthorityIndex, Reference, RoundNumber};
    ///
    /// assert_eq!(Reference::new(RoundNumber(1), AuthorityIndex(2), [7; 32]).round, RoundNumber(1));
    /// ```
    pub fn new(round: RoundNumber, author: AuthorityIndex, digest: [u8; 32]) -> Reference {
        Reference { round, author, digest }
    }

    /// The bytes that it has in a record: author 8, round 8, digest 32.
    ///
    /// ```
    /// use lomkhvide::{AuthorityIndex, Reference, RoundNumber};
    ///
    /// let block = Reference::new(RoundNumber(1), AuthorityIndex(2), [7; 32]);
    /// assert_eq!(block.to_bytes()[..8], [2, 0, 0, 0, 0, 0, 0, 0]);
    /// assert_eq!(Reference::from_bytes(&block.to_bytes()), block);
    /// ```
    pub fn to_bytes(&self) -> [u8; 48] {
        let mut bytes = [0; 48];
        bytes[..8].copy_from_slice(&self.author.0.to_le_bytes());
        bytes[8..16].copy_from_slice(&self.round.0.to_le_bytes());
        bytes[16..].copy_from_slice(&self.digest);
        bytes
    }

    /// And back.
    ///
    /// ```
    /// use lomkhvide::{AuthorityIndex, Reference, RoundNumber};
    ///
    /// assert_eq!(Reference::from_bytes(&[0; 48]), Reference::new(RoundNumber(0), AuthorityIndex(0), [0; 32]));
    /// ```
    pub fn from_bytes(bytes: &[u8; 48]) -> Reference {
        let mut digest = [0; 32];
        digest.copy_from_slice(&bytes[16..]);
        Reference { author: AuthorityIndex(word_at(bytes, 0)), round: RoundNumber(word_at(bytes, 8)), digest }
    }

    /// The locator of an offset in this block.
    ///
    /// ```
    /// use lomkhvide::{AuthorityIndex, Reference, RoundNumber};
    ///
    /// let block = Reference::new(RoundNumber(1), AuthorityIndex(2), [7; 32]);
    /// assert_eq!(block.at(3).offset(), 3);
    /// ```
    pub fn at(&self, offset: u64) -> Locator {
        Locator { block: *self, offset }
    }
}

/// Names a change, or what would be one: a block and the offset in it, which is the index of the share among all its statements. Locators are
/// ordered by reference, then by offset.
///
/// As text it is `ROUND/AUTHOR/DIGEST/OFFSET`, the digest as of a [`Reference`].
///
/// ```
/// use lomkhvide::{AuthorityIndex, Locator};
///
/// let change: Locator = "1/0/00000005/0".parse()?;
/// assert_eq!((change.reference().author, change.offset()), (AuthorityIndex(0), 0));
/// assert_eq!(change.to_string(), "1/0/00000005/0");
/// # Ok::<(), lomkhvide::NotALocator>(())
/// ```
#[derive(Clone, Copy, Debug, PartialEq, Eq, PartialOrd, Ord, Hash)]
pub struct Locator {
    block: Reference,
    offset: u64,
}

impl Locator {
    /// A locator of its parts; [`Reference::at`] makes one of a reference.
    ///
    /// ```
    /// use lomkhvide::{AuthorityIndex, Locator, RoundNumber};
    ///
    /// assert_eq!(Locator::new(RoundNumber(1), AuthorityIndex(2), [7; 32], 3).offset(), 3);
    /// ```
    pub fn new(round: RoundNumber, author: AuthorityIndex, digest: [u8; 32], offset: u64) -> Locator {
        Reference { round, author, digest }.at(offset)
    }

    /// The bytes that it has in a record: author 8, round 8, digest 32, offset 8.
    ///
    /// ```
    /// use lomkhvide::{AuthorityIndex, Locator, RoundNumber};
    ///
    /// let locator = Locator::new(RoundNumber(1), AuthorityIndex(2), [7; 32], 3);
    /// assert_eq!(locator.to_bytes()[48..], [3, 0, 0, 0, 0, 0, 0, 0]);
    /// ```
    pub fn to_bytes(&self) -> [u8; 56] {
        let mut bytes = [0; 56];
        bytes[..48].copy_from_slice(&self.block.to_bytes());
        bytes[48..].copy_from_slice(&self.offset.to_le_bytes());
        bytes
    }

    /// And back.
    ///
    /// ```
    /// use lomkhvide::{AuthorityIndex, Locator, RoundNumber};
    ///
    /// let locator = Locator::new(RoundNumber(1), AuthorityIndex(2), [7; 32], 3);
    /// assert_eq!(Locator::from_bytes(&locator.to_bytes()), locator);
    /// ```
    pub fn from_bytes(bytes: &[u8; 56]) -> Locator {
        let mut block = [0; 48];
        block.copy_from_slice(&bytes[..48]);
        Reference::from_bytes(&block).at(word_at(bytes, 48))
    }

    /// The block that it names.
    ///
    /// ```
    /// use lomkhvide::{AuthorityIndex, Reference, RoundNumber};
    ///
    /// let block = Reference::new(RoundNumber(1), AuthorityIndex(2), [7; 32]);
    /// assert_eq!(block.at(3).reference(), block);
    /// ```
    pub fn reference(&self) -> Reference {
        self.block
    }

    /// The offset in that block.
    ///
    /// ```
    /// let change: lomkhvide::Locator = "1/0/00000005/3".parse()?;
    /// assert_eq!(change.offset(), 3);
    /// # Ok::<(), lomkhvide::NotALocator>(())
    /// ```
    pub fn offset(&self) -> u64 {
        self.offset
    }
}

impl fmt::Display for Reference {
    fn fmt(&self, f: &mut fmt::Formatter) -> fmt::Result {
        write!(f, "{}/{}/", self.round, self.author)?;
        let is_short = f.alternate() || self.digest[SHORT..] == [0; 32 - SHORT];
        let shown = if is_short { SHORT } else { 32 };
        self.digest[..shown].iter().try_for_each(|byte| write!(f, "{byte:02x}"))
    }
}

impl fmt::Display for Locator {
    fn fmt(&self, f: &mut fmt::Formatter) -> fmt::Result {
        self.block.fmt(f)?;
        write!(f, "/{}", self.offset)
    }
}

/// A digest of 8 digits, and zeros after them, or of 64.
fn digest_of(hex: &str) -> Option<[u8; 32]> {
    let digits = hex.as_bytes();
    if !(digits.len() == 2 * SHORT || digits.len() == 64) || !digits.iter().all(u8::is_ascii_hexdigit) {
        return None;
    }
    let mut digest = [0; 32];
    for (byte, pair) in digest.iter_mut().zip(digits.chunks_exact(2)) {
        *byte = u8::from_str_radix(std::str::from_utf8(pair).ok()?, 16).ok()?;
    }
    Some(digest)
}

/// A number as it is printed: without a sign.
fn number_of(text: &str) -> Option<u64> {
    text.parse().ok().filter(|_| text.as_bytes()[0].is_ascii_digit())
}

fn reference_of(parts: [&str; 3]) -> Option<Reference> {
    let [round, author, digest] = parts;
    Some(Reference::new(RoundNumber(number_of(round)?), AuthorityIndex(number_of(author)?), digest_of(digest)?))
}

/// A text that is no reference.
///
/// ```
/// use lomkhvide::Reference;
///
/// let error = "1/2".parse::<Reference>().unwrap_err();
/// assert_eq!(error.to_string(), "a reference is ROUND/AUTHOR/DIGEST, the digest in 8 or 64 hexadecimal digits, as 1/0/00000005");
/// ```
#[derive(Clone, Copy, Debug, PartialEq, Eq)]
pub struct NotAReference;

impl fmt::Display for NotAReference {
    fn fmt(&self, f: &mut fmt::Formatter) -> fmt::Result {
        f.write_str("a reference is ROUND/AUTHOR/DIGEST, the digest in 8 or 64 hexadecimal digits, as 1/0/00000005")
    }
}

impl Error for NotAReference {}

/// A text that is no locator.
///
/// ```
/// use lomkhvide::Locator;
///
/// let error = "1/2/3".parse::<Locator>().unwrap_err();
/// assert_eq!(error.to_string(), "a locator is ROUND/AUTHOR/DIGEST/OFFSET, the digest in 8 or 64 hexadecimal digits, as 1/0/00000005/0");
/// ```
#[derive(Clone, Copy, Debug, PartialEq, Eq)]
pub struct NotALocator;

impl fmt::Display for NotALocator {
    fn fmt(&self, f: &mut fmt::Formatter) -> fmt::Result {
        f.write_str("a locator is ROUND/AUTHOR/DIGEST/OFFSET, the digest in 8 or 64 hexadecimal digits, as 1/0/00000005/0")
    }
}

impl Error for NotALocator {}

/// Reads what `Display` writes; a digest of 8 digits has zeros after them.
impl FromStr for Reference {
    type Err = NotAReference;

    fn from_str(text: &str) -> Result<Reference, NotAReference> {
        let parts: Vec<&str> = text.split('/').collect();
        parts.try_into().ok().and_then(reference_of).ok_or(NotAReference)
    }
}

/// Reads what `Display` writes; a digest of 8 digits has zeros after them.
impl FromStr for Locator {
    type Err = NotALocator;

    fn from_str(text: &str) -> Result<Locator, NotALocator> {
        let (block, offset) = text.rsplit_once('/').ok_or(NotALocator)?;
        let block: Reference = block.parse().map_err(|_| NotALocator)?;
        Ok(block.at(number_of(offset).ok_or(NotALocator)?))
    }
}

#[cfg(test)]
mod tests {
    use super::*;

    fn locator(round: u64, author: u64, digest: [u8; 32], offset: u64) -> Locator {
        Locator::new(RoundNumber(round), AuthorityIndex(author), digest, offset)
    }

    /// Whatever the digest, the text is read back as the same locator.
    #[test]
    fn read_back() {
        let mut texts = Vec::new();
        for place in 0..32 {
            for byte in [0, 1, 0xab, 255] {
                let mut digest = [0; 32];
                digest[place] = byte;
                let one = locator(9, 3, digest, u64::MAX);
                assert_eq!(one.to_string().parse(), Ok(one));
                assert_eq!(one.reference().to_string().parse(), Ok(one.reference()));
                let digits = one.to_string().split('/').nth(2).unwrap().len();
                assert_eq!(digits, if place < 4 || byte == 0 { 8 } else { 64 });
                texts.push((one, one.to_string()));
            }
        }
        texts.sort();
        texts.dedup();
        assert!(texts.windows(2).all(|two| two[0].0 != two[1].0 && two[0].1 != two[1].1), "one text for each locator");
        let short = "9/3/00000000/1".parse::<Locator>().unwrap();
        assert_eq!(format!("9/3/{}/1", "0".repeat(64)).parse(), Ok(short), "all digits may be given");
    }

    #[test]
    fn for_people() {
        assert_eq!(format!("{:#}", locator(9, 3, [0xab; 32], 7)), "9/3/abababab/7");
        assert_eq!(format!("{:#}", locator(9, 3, [0xab; 32], 7).reference()), "9/3/abababab");
    }

    #[test]
    fn no_names() {
        let digest = "ab".repeat(32);
        for text in [
            "",
            "////",
            "9/3/ab/1",
            "9/3/0000005/1",
            "9/3/000000005/1",
            "+9/3/00000005/1",
            "9/-3/00000005/1",
            "9/3/00000005/",
            "9/3/00000005/+1",
            "18446744073709551616/3/00000005/1",
            "9/3/00000005/1/1",
            &format!("9/3/{digest}"),
            &format!("9/3/{digest}/x"),
            &format!("9/3/+{}/1", &digest[1..]),
            // as many bytes, fewer digits
            &format!("9/3/{}é/1", &digest[2..]),
        ] {
            assert_eq!(text.parse::<Locator>(), Err(NotALocator), "{text}");
        }
        for text in ["", "9/3", "9/3/0000000g", "9/3/00000005/1", "9//00000005"] {
            assert_eq!(text.parse::<Reference>(), Err(NotAReference), "{text}");
        }
    }

    #[test]
    fn order() {
        let low = locator(1, 200, [9; 32], 300);
        assert!(low < locator(2, 0, [0; 32], 0), "by round first");
        assert!(low < locator(1, 201, [0; 32], 0), "then by author");
        assert!(low < locator(1, 200, [10; 32], 0), "then by digest");
        assert!(low < locator(1, 200, [9; 32], 301), "then by offset");
    }
}
