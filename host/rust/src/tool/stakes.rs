//! `stakes`: a file of stakes from a list and back.

use std::fs::{self, File};
use std::io::{self, Write};
use std::process;

use super::asked::Asked;
use super::input::{self, NoCommittee, loaded, read_file, up_to};
use super::json::object;
use super::members::Members;
use super::{Fault, Whole, unreadable};

/// The file of stakes that is taken where none is named.
const STAKES: &str = "stakes";

/// The longest file of stakes that is one.
const LONGEST: u64 = 65_536;

/// A record: the index of the next one 2 bytes, a name 16, a stake 8. The index of the first record stands in front of all.
const FRONT: usize = 2;
const RECORD: usize = 26;
const NAME: usize = 16;

/// The committee of the file that was named, or of the file `stakes` here; of the latter none is as good as an empty one.
pub fn members(named: Option<&str>) -> Result<Result<Members, NoCommittee>, Fault> {
    let name = named.unwrap_or(STAKES);
    match File::open(name).and_then(|file| up_to(file, LONGEST)) {
        Ok(Ok(bytes)) => Ok(loaded(name, &bytes, false)),
        Ok(Err(_)) => Ok(Err(NoCommittee {
            number: 56,
            reason: format!("the file of stakes is broken, file {name}: over {LONGEST} bytes"),
        })),
        Err(error) if named.is_none() && error.kind() == io::ErrorKind::NotFound => Ok(loaded(name, &[], true)),
        Err(error) => unreadable(format!("{name}: cannot be read: {error}")),
    }
}

/// The records along the chain, as far as it is whole, and what is wrong there if anything.
fn chain(file: &[u8]) -> (Vec<(usize, &[u8])>, Option<String>) {
    let mut records: Vec<(usize, &[u8])> = Vec::new();
    if file.is_empty() {
        return (records, None);
    }
    if file.len() < FRONT || !(file.len() - FRONT).is_multiple_of(RECORD) {
        return (records, Some(format!("{} bytes end inside the index or a record", file.len())));
    }
    let count = (file.len() - FRONT) / RECORD;
    let mut next = u16::from_le_bytes([file[0], file[1]]) as usize;
    while next != 0 {
        let from = records.last().map_or("the index in front".into(), |(index, _)| format!("record {index}"));
        if next > count {
            return (records, Some(format!("{from} names record {next}, and there are {count}")));
        }
        if records.iter().any(|(index, _)| *index == next) {
            return (records, Some(format!("{from} names record {next}, which came before")));
        }
        let record = &file[FRONT + RECORD * (next - 1)..FRONT + RECORD * next];
        records.push((next, record));
        next = u16::from_le_bytes([record[0], record[1]]) as usize;
    }
    (records, None)
}

/// The name of a record, for people: a character that cannot be shown is a question mark.
fn name_of(record: &[u8]) -> String {
    let name = record[2..2 + NAME].split(|byte| *byte == 0).next().unwrap_or(&[]);
    let shown = |c: char| if c.is_control() || c == char::REPLACEMENT_CHARACTER { '?' } else { c };
    String::from_utf8_lossy(name).chars().map(shown).collect()
}

fn stake_of(record: &[u8]) -> u64 {
    record[2 + NAME..].iter().rev().fold(0, |number, byte| number << 8 | *byte as u64)
}

/// The names along the chain of a file that the engine has taken.
pub fn names(file: &[u8]) -> Vec<String> {
    chain(file).0.iter().map(|(_, record)| name_of(record)).collect()
}

/// What is wrong with a file that the engine has refused, and where.
pub fn place(file: &[u8]) -> Option<String> {
    let (records, broken) = chain(file);
    if broken.is_some() {
        return broken;
    }
    for (i, (index, record)) in records.iter().enumerate() {
        let name = &record[2..2 + NAME];
        let length = name.iter().position(|byte| *byte == 0).unwrap_or(NAME);
        if length == 0 {
            return Some(format!("record {index} has no name"));
        }
        if name[length..].iter().any(|byte| *byte != 0) {
            return Some(format!("the name of record {index}, '{}', goes on after a zero", name_of(record)));
        }
        if let Some((other, _)) = records[..i].iter().find(|(_, other)| other[2..2 + NAME] == *name) {
            return Some(format!("'{}' is the name of record {other} and of record {index}", name_of(record)));
        }
    }
    let zero = records.iter().find(|(_, record)| stake_of(record) == 0);
    zero.map(|(index, record)| format!("record {index}, '{}', has stake 0", name_of(record)))
}

/// The file of a list, or what is wrong with it, by line.
fn made(list: &str) -> Result<Vec<u8>, String> {
    let mut members: Vec<(usize, &str, u64)> = Vec::new();
    for (number, line) in (1..).zip(list.lines()) {
        let line = line.trim();
        if line.is_empty() {
            continue;
        }
        let Some((name, stake)) = line.rsplit_once(char::is_whitespace) else {
            return Err(format!("line {number}: a name and a stake, not '{line}'"));
        };
        let name = name.trim_end();
        if name.len() > NAME || name.contains('\0') {
            return Err(format!("line {number}: the name '{name}' has {} bytes, and {NAME} is the most", name.len()));
        }
        if let Some((other, _, _)) = members.iter().find(|(_, other, _)| *other == name) {
            return Err(format!("line {number}: the name '{name}' is repeated: line {other} has it"));
        }
        match stake.parse() {
            Ok(stake) if stake > 0 => members.push((number, name, stake)),
            _ => return Err(format!("line {number}: '{stake}' is no stake for '{name}': a whole number above 0")),
        }
    }
    if members.is_empty() {
        return Err("no member: an empty file would stand for the course committee".into());
    }
    if members.len() > 128 {
        return Err(format!("{} members, and 128 is the most", members.len()));
    }
    let mut file = 1u16.to_le_bytes().to_vec();
    for (i, (_, name, stake)) in members.iter().enumerate() {
        let next = if i + 1 < members.len() { i as u16 + 2 } else { 0 };
        file.extend(next.to_le_bytes());
        file.extend(name.bytes().chain([0; NAME]).take(NAME));
        file.extend(stake.to_le_bytes());
    }
    Ok(file)
}

/// Makes the file, or shows one.
pub fn stakes(asked: &Asked, out: &mut dyn Write) -> Result<Whole, Fault> {
    let given = read_file(&asked.file)?;
    match asked.rest.first() {
        Some(place) => make(asked, &given, place, out),
        None => show(asked, &given, out),
    }
}

/// Nothing is written where the list is bad or the engine refuses what it makes; the file is there whole or not at all.
fn make(asked: &Asked, list: &[u8], place: &str, out: &mut dyn Write) -> Result<Whole, Fault> {
    let list = match std::str::from_utf8(list) {
        Ok(list) => list,
        Err(error) => return unreadable(format!("{}, byte {}: not text", asked.file, error.valid_up_to())),
    };
    let file = made(list).map_err(|why| Fault::Unreadable(format!("{}, {why}; nothing is written", asked.file)))?;
    let members = match loaded(place, &file, false) {
        Ok(members) => members,
        Err(refused) => {
            return unreadable(format!("{}: refused {}, {}; nothing is written", asked.file, refused.number, refused.reason));
        }
    };
    let beside = format!("{place}.{}.new", process::id());
    let written = File::create_new(&beside)
        .and_then(|mut new| new.write_all(&file).and_then(|()| new.sync_all()))
        .and_then(|()| fs::rename(&beside, place));
    if let Err(error) = written {
        let _ = fs::remove_file(&beside);
        return unreadable(format!("{place}: cannot be written: {error}"));
    }
    match asked.json {
        true => writeln!(out, "{}", object([("written", place.into()), ("committee", members.json())]))?,
        false => writeln!(out, "{place} is written.\n{}", members.line())?,
    }
    Ok(Whole::All)
}

fn show(asked: &Asked, file: &[u8], out: &mut dyn Write) -> Result<Whole, Fault> {
    if file.is_empty() {
        return unreadable(format!("{}: empty, which stands for the course committee", asked.file));
    }
    if file.len() as u64 > LONGEST {
        return unreadable(format!("{}: refused 56, the file of stakes is broken: over {LONGEST} bytes", asked.file));
    }
    let members = match input::loaded(&asked.file, file, false) {
        Ok(members) => members,
        Err(refused) => {
            return unreadable(format!(
                "{}: refused {}, {}; to make one of a list: lomkhvide stakes LIST FILE",
                asked.file, refused.number, refused.reason
            ));
        }
    };
    if asked.json {
        writeln!(out, "{}", object([("committee", members.json())]))?;
        return Ok(Whole::All);
    }
    for owner in members.committee.authorities() {
        writeln!(out, "{} {}", members.name(owner).unwrap_or_default(), members.stake(owner))?;
    }
    Ok(Whole::All)
}
