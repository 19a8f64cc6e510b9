//! An input of the program `listing`, taken apart.

use std::fs::File;
use std::io::{self, Read};

use lomkhvide::Committee;

use super::asked::Asked;
use super::members::{Members, Source};
use super::stakes::{self, names};
use super::{Fault, unreadable};

/// What `listing` lends for the store, and the longest record that it reads.
const LISTING_STORE: usize = 65_536;
const LISTING_RECORD: usize = 8_192;

/// The longest file that is read: a thousand blocks of the largest committee with a program in each are half as long.
pub const MOST_BYTES: u64 = 1 << 27;

/// The most records that are read: 1,024 of them can be stored, and each may come again and again.
pub const MOST_RECORDS: usize = 1 << 18;

pub struct Input<'a> {
    pub members: Members,
    pub records: Vec<Framed<'a>>,
    pub broken: Option<Broken>,
}

/// A record, and where its length stands in the file.
#[derive(Clone, Copy)]
pub struct Framed<'a> {
    pub at: usize,
    pub bytes: &'a [u8],
}

/// The place at which the reading ended early, and why.
#[derive(Clone)]
pub struct Broken {
    pub at: usize,
    pub why: String,
}

/// The committee is refused: nothing is fed.
pub struct NoCommittee {
    pub number: u64,
    pub reason: String,
}

/// The bytes of a file; '-' is standard input. More than `MOST_BYTES` are not read.
pub fn read_file(name: &str) -> Result<Vec<u8>, Fault> {
    let read = match name {
        "-" => up_to(io::stdin().lock(), MOST_BYTES),
        _ => File::open(name).and_then(|file| match file.metadata()?.len() {
            0..=MOST_BYTES => up_to(file, MOST_BYTES),
            length => Ok(Err(length)),
        }),
    };
    match read {
        Ok(Ok(bytes)) => Ok(bytes),
        Ok(Err(length)) => {
            unreadable(format!("{name}: {length} bytes or more, and at most {MOST_BYTES} are read: feed it to a node in parts"))
        }
        Err(error) => unreadable(format!("{name}: cannot be read: {error}")),
    }
}

/// All bytes, or how many there are at least, where there are more.
pub fn up_to(from: impl Read, most: u64) -> io::Result<Result<Vec<u8>, u64>> {
    let mut bytes = Vec::new();
    from.take(most + 1).read_to_end(&mut bytes)?;
    Ok(if bytes.len() as u64 > most { Err(bytes.len() as u64) } else { Ok(bytes) })
}

impl<'a> Input<'a> {
    /// Takes the bytes apart, as `listing` does; missing ones are zero up to the end of the stakes.
    pub fn read(asked: &Asked, bytes: &'a [u8]) -> Result<Result<Input<'a>, NoCommittee>, Fault> {
        let byte = |i: usize| bytes.get(i).copied().unwrap_or(0);
        let (members, at) = match byte(0) {
            255 => (stakes::members(asked.stakes.as_deref())?, 1),
            _ if asked.stakes.is_some() => {
                let owners = byte(0);
                return Err(Fault::Usage(format!("--stakes: {} has a committee of its own, of {owners} owners", asked.file)));
            }
            count => {
                let end = 1 + 8 * count as usize;
                (in_input((1..end).map(byte).collect(), bytes.is_empty()), end)
            }
        };
        let members = match members {
            Ok(members) => members,
            Err(refused) => return Ok(Err(refused)),
        };
        let mut input = Input { members, records: Vec::new(), broken: None };
        input.frame(bytes, at, if asked.listing { LISTING_RECORD } else { usize::MAX });
        if input.records.len() > MOST_RECORDS {
            return unreadable(format!(
                "{}: over {MOST_RECORDS} records, and 1024 can be stored: feed it to a node in parts",
                asked.file
            ));
        }
        if let Some(first) = asked.first.filter(|first| *first <= input.records.len()) {
            input.records.truncate(first);
            input.broken = None;
        }
        Ok(Ok(input))
    }

    fn frame(&mut self, bytes: &'a [u8], mut at: usize, longest: usize) {
        while at < bytes.len() && self.records.len() <= MOST_RECORDS {
            match framed(&bytes[at..], longest) {
                Ok(record) => {
                    self.records.push(Framed { at, bytes: record });
                    at += 4 + record.len();
                }
                Err(why) => {
                    self.broken = Some(Broken { at, why });
                    break;
                }
            }
        }
    }

    /// The length of the store that is lent: all records fit into it, or as much as was asked for.
    pub fn store(&self, asked: &Asked) -> usize {
        let entries: usize = self.records.iter().map(|record| 8 + record.bytes.len()).sum();
        match asked.store {
            Some(store) => store,
            None if asked.listing => LISTING_STORE,
            None => (16 + entries).min(u32::MAX as usize),
        }
    }

    /// How many records there are, a broken one among them.
    pub fn count(&self) -> usize {
        self.records.len() + self.broken.is_some() as usize
    }
}

/// The committee at the front of the input.
fn in_input(stakes: Vec<u8>, is_empty: bool) -> Result<Members, NoCommittee> {
    match Committee::from_bytes(stakes) {
        Ok(committee) => Ok(Members::new(committee, Vec::new(), Source::Input)),
        Err(refusal) => {
            let empty = if is_empty { "; the file is empty" } else { "" };
            Err(NoCommittee { number: refusal.number(), reason: format!("{}{empty}", refusal.sentence()) })
        }
    }
}

/// The record at the front, after its length.
fn framed(bytes: &[u8], longest: usize) -> Result<&[u8], String> {
    let Some((length, rest)) = bytes.split_first_chunk::<4>() else {
        let stray = if bytes.len() == 1 { "1 stray byte".into() } else { format!("{} stray bytes", bytes.len()) };
        return Err(format!("{stray} where the length of a record has 4"));
    };
    let length = u32::from_le_bytes(*length) as usize;
    if length > longest {
        return Err(format!("a record of {length} bytes, and {longest} is the most that listing reads"));
    }
    rest.get(..length).ok_or_else(|| {
        let there = if rest.len() == 1 { "1 is".into() } else { format!("{} are", rest.len()) };
        format!("a record of {length} bytes, of which {there} there: the file ends inside it")
    })
}

/// The names along the chain of a file of stakes, for a committee that the engine has taken from it.
pub fn loaded(name: &str, bytes: &[u8], absent: bool) -> Result<Members, NoCommittee> {
    let source = match (absent, bytes.is_empty()) {
        (true, _) => Source::CourseForAbsent(name.into()),
        (false, true) => Source::CourseForEmpty(name.into()),
        (false, false) => Source::File(name.into()),
    };
    match Committee::load(bytes) {
        Ok(committee) => Ok(Members::new(committee, names(bytes), source)),
        Err(refusal) => {
            let place = stakes::place(bytes).map_or(String::new(), |place| format!(": {place}"));
            Err(NoCommittee { number: refusal.number(), reason: format!("{}, file {name}{place}", refusal.sentence()) })
        }
    }
}
