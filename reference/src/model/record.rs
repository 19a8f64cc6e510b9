//! 01, "Blocks": references, locators, statements and the block record, read and written; 02, "Nine": its second edition, with a time.

use std::fmt;

/// A reference: author, round, digest; ordered by round, author, digest bytes.
#[derive(Clone, Copy, PartialEq, Eq, Hash)]
pub struct Reference {
    pub author: u64,
    pub round: u64,
    pub digest: [u8; 32],
}

/// A locator: a reference and an offset, ordered so.
#[derive(Clone, Copy, PartialEq, Eq, PartialOrd, Ord, Hash, Debug)]
pub struct Locator {
    pub block: Reference,
    pub offset: u64,
}

#[derive(Clone, PartialEq, Eq, Debug)]
pub enum Statement {
    Share(Vec<u8>),
    Accept(Locator),
    Reject(Locator, Option<Locator>),
    Range(Reference, u64, u64),
}

#[derive(Clone, PartialEq, Eq, Debug)]
pub struct Block {
    pub reference: Reference,
    pub marked: bool,
    pub includes: Vec<Reference>,
    pub statements: Vec<Statement>,
    /// The time of its creation in nanoseconds, in a record of edition 2.
    pub time: Option<u64>,
}

pub const MAX_INCLUDES: usize = 256;
pub const MAX_STATEMENTS: usize = 1024;

impl PartialOrd for Reference {
    fn partial_cmp(&self, other: &Self) -> Option<std::cmp::Ordering> {
        Some(self.cmp(other))
    }
}

impl Ord for Reference {
    fn cmp(&self, other: &Self) -> std::cmp::Ordering {
        (self.round, self.author, self.digest).cmp(&(other.round, other.author, other.digest))
    }
}

/// Round, author and the digest without its closing zeros, in hex.
impl fmt::Debug for Reference {
    fn fmt(&self, f: &mut fmt::Formatter<'_>) -> fmt::Result {
        let length = 32 - self.digest.iter().rev().take_while(|byte| **byte == 0).count();
        write!(f, "round {} author {} digest ", self.round, self.author)?;
        self.digest[..length].iter().try_for_each(|byte| write!(f, "{byte:02x}"))
    }
}

impl Reference {
    /// As it stands in a record.
    pub fn bytes(&self) -> [u8; 48] {
        let mut out = Vec::new();
        put_reference(&mut out, self);
        out.try_into().unwrap()
    }
}

impl Locator {
    pub fn new(block: Reference, offset: u64) -> Locator {
        Locator { block, offset }
    }

    /// As it stands in a record.
    pub fn bytes(&self) -> [u8; 56] {
        let mut out = Vec::new();
        put_locator(&mut out, self);
        out.try_into().unwrap()
    }
}

impl Block {
    /// Whether the statement at this index is a share.
    pub fn shares(&self, offset: u64) -> bool {
        offset < self.statements.len() as u64 && matches!(self.statements[offset as usize], Statement::Share(_))
    }

    /// The offsets of its shares, neighbouring ones in one range, as `shared_ranges` gives them.
    pub fn shared_ranges(&self) -> Vec<(u64, u64)> {
        let mut ranges: Vec<(u64, u64)> = Vec::new();
        for offset in 0..self.statements.len() as u64 {
            match ranges.last_mut() {
                _ if !self.shares(offset) => {}
                Some(last) if last.1 == offset => last.1 += 1,
                _ => ranges.push((offset, offset + 1)),
            }
        }
        ranges
    }

    pub fn encode(&self) -> Vec<u8> {
        let mut out = Vec::new();
        put_reference(&mut out, &self.reference);
        out.push(self.marked as u8);
        out.extend((self.includes.len() as u16).to_le_bytes());
        out.extend((self.statements.len() as u16).to_le_bytes());
        out.extend([if self.time.is_some() { 2 } else { 0 }, 0, 0]);
        self.time.iter().for_each(|time| out.extend((*time as u128).to_le_bytes()));
        self.includes.iter().for_each(|include| put_reference(&mut out, include));
        self.statements.iter().for_each(|statement| put_statement(&mut out, statement, 2));
        out
    }

    /// The block that a record holds; none where the record is malformed (20).
    pub fn decode(bytes: &[u8]) -> Option<Block> {
        let mut reader = Reader(bytes);
        let reference = reader.reference()?;
        let marked = reader.bit()?;
        let (includes, statements) = (reader.number(2)? as usize, reader.number(2)? as usize);
        let time = match reader.take(3)? {
            [0, 0, 0] => None,
            [2, 0, 0] => Some(u128::from_le_bytes(reader.take(16)?.try_into().unwrap()).try_into().ok()?),
            _ => return None,
        };
        if includes > MAX_INCLUDES || statements > MAX_STATEMENTS {
            return None;
        }
        let includes = (0..includes).map(|_| reader.reference()).collect::<Option<_>>()?;
        let statements = (0..statements).map(|_| reader.statement(2)).collect::<Option<_>>()?;
        reader.0.is_empty().then_some(Block { reference, marked, includes, statements, time })
    }
}

pub(super) fn put_reference(out: &mut Vec<u8>, reference: &Reference) {
    out.extend(reference.author.to_le_bytes());
    out.extend(reference.round.to_le_bytes());
    out.extend(reference.digest);
}

pub(super) fn put_locator(out: &mut Vec<u8>, locator: &Locator) {
    put_reference(out, &locator.block);
    out.extend(locator.offset.to_le_bytes());
}

/// A statement; a share's length has so many bytes.
fn put_statement(out: &mut Vec<u8>, statement: &Statement, width: usize) {
    match statement {
        Statement::Share(payload) => {
            out.push(0);
            out.extend(&payload.len().to_le_bytes()[..width]);
            out.extend(payload);
        }
        Statement::Accept(locator) => {
            out.push(1);
            put_locator(out, locator);
        }
        Statement::Reject(locator, second) => {
            out.push(2);
            put_locator(out, locator);
            out.push(second.is_some() as u8);
            second.iter().for_each(|second| put_locator(out, second));
        }
        Statement::Range(reference, start, end) => {
            out.push(3);
            put_reference(out, reference);
            out.extend(start.to_le_bytes());
            out.extend(end.to_le_bytes());
        }
    }
}

/// The bytes that are still to be read.
pub(super) struct Reader<'a>(pub(super) &'a [u8]);

impl<'a> Reader<'a> {
    pub(super) fn take(&mut self, length: usize) -> Option<&'a [u8]> {
        let (taken, rest) = self.0.split_at_checked(length)?;
        self.0 = rest;
        Some(taken)
    }

    pub(super) fn number(&mut self, length: usize) -> Option<u64> {
        Some(number(self.take(length)?))
    }

    fn bit(&mut self) -> Option<bool> {
        match self.number(1)? {
            0 => Some(false),
            1 => Some(true),
            _ => None,
        }
    }

    pub(super) fn reference(&mut self) -> Option<Reference> {
        let (author, round) = (self.number(8)?, self.number(8)?);
        Some(Reference { author, round, digest: self.take(32)?.try_into().unwrap() })
    }

    pub(super) fn locator(&mut self) -> Option<Locator> {
        Some(Locator { block: self.reference()?, offset: self.number(8)? })
    }

    /// A statement; a share's length has so many bytes.
    fn statement(&mut self, width: usize) -> Option<Statement> {
        match self.number(1)? {
            0 => {
                let length = self.number(width)? as usize;
                Some(Statement::Share(self.take(length)?.to_vec()))
            }
            1 => Some(Statement::Accept(self.locator()?)),
            2 => {
                let locator = self.locator()?;
                let second = if self.bit()? { Some(self.locator()?) } else { None };
                Some(Statement::Reject(locator, second))
            }
            3 => Some(Statement::Range(self.reference()?, self.number(8)?, self.number(8)?)),
            _ => None,
        }
    }
}

/// Includes one after the other, 48 bytes each, and nothing after.
pub fn includes_of(bytes: &[u8]) -> Option<Vec<Reference>> {
    let mut reader = Reader(bytes);
    let mut includes = Vec::new();
    while !reader.0.is_empty() {
        includes.push(reader.reference()?);
    }
    Some(includes)
}

/// Statements as they are given to the writer of a record, and nothing after: a share's length has 4 bytes.
pub fn given_of(bytes: &[u8]) -> Option<Vec<Statement>> {
    let mut reader = Reader(bytes);
    let mut statements = Vec::new();
    while !reader.0.is_empty() {
        statements.push(reader.statement(4)?);
    }
    Some(statements)
}

pub fn includes_bytes(includes: &[Reference]) -> Vec<u8> {
    let mut out = Vec::new();
    includes.iter().for_each(|include| put_reference(&mut out, include));
    out
}

pub fn given_bytes(statements: &[Statement]) -> Vec<u8> {
    let mut out = Vec::new();
    statements.iter().for_each(|statement| put_statement(&mut out, statement, 4));
    out
}

/// A locator of 56 bytes; none of any other number of bytes.
pub fn locator_of(bytes: &[u8]) -> Option<Locator> {
    let mut reader = Reader(bytes);
    let locator = reader.locator()?;
    reader.0.is_empty().then_some(locator)
}

/// A reference of 48 bytes; none of any other number of bytes.
pub fn reference_of(bytes: &[u8]) -> Option<Reference> {
    let mut reader = Reader(bytes);
    let reference = reader.reference()?;
    reader.0.is_empty().then_some(reference)
}

/// A number of up to 8 bytes, lowest first.
pub fn number(bytes: &[u8]) -> u64 {
    bytes.iter().rev().fold(0, |n, byte| n << 8 | *byte as u64)
}
