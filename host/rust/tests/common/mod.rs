//! What the tests share: graphs, folders, and chance.

#![allow(dead_code)]

use std::fs;
use std::path::{Path, PathBuf};
use std::process::Command;

use lomkhvide::{AuthorityIndex, Record, RecordBuilder, RoundNumber};

/// Numbers that look like chance and are the same in every run.
pub struct Chance(pub u64);

impl Chance {
    pub fn below(&mut self, end: u64) -> u64 {
        self.0 = self.0.wrapping_mul(6_364_136_223_846_793_005).wrapping_add(1_442_695_040_888_963_407);
        (self.0 >> 33) % end
    }
}

/// Begins a record, by bare numbers.
pub fn builder(round: u64, author: u64, digest: [u8; 32]) -> RecordBuilder {
    Record::builder(RoundNumber(round), AuthorityIndex(author), digest)
}

/// The records of a graph: each owner makes a block in each round, with all blocks of the round before, a share, and accepts of the
/// others' shares of that round.
pub fn graph(owners: u64, rounds: u64) -> Vec<Record> {
    let mut records: Vec<Record> = Vec::new();
    for round in 0..rounds {
        let before: Vec<_> =
            records.iter().rev().take(if round == 0 { 0 } else { owners as usize }).rev().map(Record::reference).collect();
        for author in 0..owners {
            let mut digest = [0; 32];
            digest[..4].copy_from_slice(&(1 + records.len() as u32).to_be_bytes());
            let mut builder = Record::builder(RoundNumber(round), AuthorityIndex(author), digest);
            for block in &before {
                builder = builder.include(*block);
            }
            if round > 0 {
                builder = builder.share(&[1, 2, 3]);
            }
            if round > 1 {
                for block in before.iter().filter(|block| block.author.0 != author) {
                    builder = builder.accept(block.at(0));
                }
            }
            records.push(builder.finish().unwrap());
        }
    }
    records
}

/// Records as an input of `listing`, under owners of stake 1.
pub fn input(owners: u8, records: &[Record]) -> Vec<u8> {
    let mut bytes = vec![owners];
    (0..owners).for_each(|_| bytes.extend(1u64.to_le_bytes()));
    for record in records {
        bytes.extend((record.as_bytes().len() as u32).to_le_bytes());
        bytes.extend(record.as_bytes());
    }
    bytes
}

/// An empty folder for a test.
pub fn folder(name: &str) -> PathBuf {
    let folder = Path::new(env!("CARGO_TARGET_TMPDIR")).join(name);
    let _ = fs::remove_dir_all(&folder);
    fs::create_dir_all(&folder).unwrap();
    folder
}

/// The folder of the inputs of `listing_runs`.
pub fn runs() -> PathBuf {
    Path::new(env!("CARGO_MANIFEST_DIR")).join("../../crates/listing_runs")
}

/// A value of JSON.
#[derive(Clone, Debug, PartialEq)]
pub enum Json {
    Null,
    Bool(bool),
    Number(u64),
    Text(String),
    List(Vec<Json>),
    Object(Vec<(String, Json)>),
}

impl Json {
    /// The value of a whole text.
    pub fn read(text: &str) -> Option<Json> {
        let (value, rest) = value(text.as_bytes())?;
        rest.is_empty().then_some(value)
    }

    /// The entry of that name.
    pub fn of(&self, name: &str) -> &Json {
        let Json::Object(entries) = self else { panic!("{name} of {self:?}") };
        entries.iter().find(|(key, _)| key == name).map_or(&Json::Null, |(_, value)| value)
    }

    pub fn list(&self) -> &[Json] {
        let Json::List(values) = self else { panic!("no list: {self:?}") };
        values
    }

    pub fn number(&self) -> u64 {
        let Json::Number(number) = self else { panic!("no number: {self:?}") };
        *number
    }

    pub fn text(&self) -> &str {
        let Json::Text(text) = self else { panic!("no text: {self:?}") };
        text
    }
}

/// The value at the front, and what follows it.
fn value(text: &[u8]) -> Option<(Json, &[u8])> {
    match text.first()? {
        b'{' => entries(text, b'}', entry).map(|(entries, rest)| (Json::Object(entries), rest)),
        b'[' => entries(text, b']', value).map(|(values, rest)| (Json::List(values), rest)),
        b'"' => string(text).map(|(text, rest)| (Json::Text(text), rest)),
        b'0'..=b'9' => {
            let (digits, rest) = text.split_at(text.iter().take_while(|byte| byte.is_ascii_digit()).count());
            Some((Json::Number(std::str::from_utf8(digits).ok()?.parse().ok()?), rest))
        }
        _ => {
            let words = [("true", Json::Bool(true)), ("false", Json::Bool(false)), ("null", Json::Null)];
            words.into_iter().find_map(|(word, value)| Some((value, text.strip_prefix(word.as_bytes())?)))
        }
    }
}

fn entry(text: &[u8]) -> Option<((String, Json), &[u8])> {
    let (name, rest) = string(text)?;
    let (value, rest) = value(rest.strip_prefix(b":")?)?;
    Some(((name, value), rest))
}

fn entries<T>(text: &[u8], end: u8, entry: impl Fn(&[u8]) -> Option<(T, &[u8])>) -> Option<(Vec<T>, &[u8])> {
    let (mut found, mut rest) = (Vec::new(), &text[1..]);
    if rest.first() == Some(&end) {
        return Some((found, &rest[1..]));
    }
    loop {
        let (value, after) = entry(rest)?;
        found.push(value);
        match after.split_first()? {
            (b',', after) => rest = after,
            (byte, after) if *byte == end => return Some((found, after)),
            _ => return None,
        }
    }
}

fn string(text: &[u8]) -> Option<(String, &[u8])> {
    let (mut units, mut rest) = (Vec::new(), text.strip_prefix(b"\"")?);
    loop {
        match rest {
            [b'"', after @ ..] => return Some((String::from_utf16(&units).ok()?, after)),
            [b'\\', b'u', after @ ..] => {
                units.push(u16::from_str_radix(std::str::from_utf8(after.get(..4)?).ok()?, 16).ok()?);
                rest = &after[4..];
            }
            [byte @ 32..=126, after @ ..] if *byte != b'\\' => {
                units.push(*byte as u16);
                rest = after;
            }
            _ => return None,
        }
    }
}

/// A program of the examples. `cargo test` has built it; `cargo test --test NAME` has not.
pub fn example(name: &str) -> PathBuf {
    let tests = std::env::current_exe().unwrap();
    let program = tests.parent().unwrap().parent().unwrap().join("examples").join(name);
    if !program.exists() {
        let built = Command::new(env!("CARGO")).args(["build", "--offline", "--example", name]).status().unwrap();
        assert!(built.success());
    }
    program
}

/// A file of stakes.
pub fn stakes_file(stakes: &[u64]) -> Vec<u8> {
    let mut file = vec![1, 0];
    for (i, stake) in stakes.iter().enumerate() {
        let next = if i + 1 < stakes.len() { i as u16 + 2 } else { 0 };
        file.extend(next.to_le_bytes());
        let mut name = [0; 16];
        name[..8].copy_from_slice(format!("owner{i:03}").as_bytes());
        file.extend(name);
        file.extend(stake.to_le_bytes());
    }
    file
}

/// A chain of blocks under owners of stake 2 and 1, of which both have to vote: each block includes both owners' blocks of the round before, shares
/// a change and accepts the other's.
pub fn chain(blocks: u64) -> Vec<Record> {
    let mut records: Vec<Record> = Vec::new();
    for i in 0..blocks {
        let (author, round) = (i % 2, i / 2);
        let mut digest = [5; 32];
        digest[..8].copy_from_slice(&i.to_le_bytes());
        let mut builder = builder(round, author, digest);
        if round > 0 {
            for before in &records[2 * round as usize - 2..2 * round as usize] {
                builder = builder.include(before.reference());
            }
        }
        if i + 1 == blocks || i == 1023 {
            builder = builder.share(&i.to_le_bytes());
        }
        records.push(builder.finish().unwrap());
    }
    records
}
