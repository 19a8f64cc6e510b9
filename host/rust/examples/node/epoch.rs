//! From a full store to a new one.
//!
//! A store holds 1,024 blocks. Before it is full the owners mark their blocks: a marked block passes votes on and does not certify. Once
//! owners of quorum stake have marked one, or the store is full, the epoch may be closed: `node --epoch OLD NEW` writes `closed` into OLD, so
//! that nothing is fed there any more while it can still be listed, and begins NEW, under the same stakes or those of a file `stakes` that is
//! there already. There the owners start from new blocks of round 0. Those of earlier epochs are not taken again, and so nothing is that
//! stands on them: every block of a later round comes down to blocks of round 0.
//!
//! What was not final when the epoch was closed is lost to the new one unless it is shared again: NEW gets the list `share-again` of it.

use std::collections::BTreeSet;
use std::path::Path;

use lomkhvide::{Engine, Listed, Locator, Owners, Record, Reference, RoundNumber, Stake};

use crate::files::{Access, Files, ROOM, Told, checksum, read_if_there, replace};
use crate::node::{LONGEST_RECORD, MOST_BLOCKS, READING};
use crate::waiting;

/// The epoch of a folder: its number, from 1 on, and the blocks of round 0 of those before it.
pub struct Epoch {
    pub number: u64,
    before: BTreeSet<Reference>,
}

impl Epoch {
    /// From the file `epoch`: a line with the number, one with each of the blocks, and one with a checksum. Without it, the first epoch.
    pub fn read(folder: &Path) -> Told<Epoch> {
        let path = folder.join("epoch");
        let Some(bytes) = read_if_there(&path)? else { return Ok(Epoch { number: 1, before: BTreeSet::new() }) };
        Epoch::of(&bytes).ok_or_else(|| format!("{}: it is damaged", path.display()).into())
    }

    fn of(bytes: &[u8]) -> Option<Epoch> {
        let mut lines = str::from_utf8(bytes).ok()?.lines();
        let number = lines.next()?.parse().ok()?;
        let before = lines.filter_map(block_of).collect();
        let epoch = Epoch { number, before };
        (epoch.text().as_bytes() == bytes).then_some(epoch)
    }

    fn text(&self) -> String {
        let mut text = format!("{}\n", self.number);
        self.before.iter().for_each(|block| text += &format!("{}\n", hex(&block.to_bytes())));
        let sum = checksum(text.as_bytes());
        text + &format!("checksum {sum:016x}\n")
    }

    /// Refuses what an earlier epoch began with.
    pub fn admits(&self, record: &Record) -> Result<(), String> {
        match self.before.contains(&record.reference()) {
            true => Err("it began an earlier epoch".to_string()),
            false => Ok(()),
        }
    }
}

fn hex(bytes: &[u8]) -> String {
    bytes.iter().map(|byte| format!("{byte:02x}")).collect()
}

/// A line of the file: the 48 bytes of a reference.
fn block_of(line: &str) -> Option<Reference> {
    let mut block = [0; 48];
    if line.len() != 96 || !line.is_ascii() {
        return None;
    }
    for (i, byte) in block.iter_mut().enumerate() {
        *byte = u8::from_str_radix(&line[2 * i..2 * i + 2], 16).ok()?;
    }
    Some(Reference::from_bytes(&block))
}

/// No record is fed where the epoch is closed.
pub fn refuse_closed(folder: &Path) -> Told<()> {
    match read_if_there(&folder.join("closed"))? {
        Some(text) => {
            let text = String::from_utf8_lossy(&text);
            Err(format!("{}: {}; node --list shows what is final", folder.display(), text.trim_end()).into())
        }
        None => Ok(()),
    }
}

/// Closes the epoch of a folder and begins the next in another. Where it was stopped in the middle it may be run again.
pub fn next(old: &Path, new: &Path) -> Told<()> {
    if !old.join("current").exists() {
        return Err(format!("{}: no node's folder", old.display()).into());
    }
    let files = Files::open(old, Access::Write)?;
    let (engine, epoch) = (files.engine()?, Epoch::read(old)?);
    let records: Vec<Record> = engine.records().map(|(_, record)| record).collect();
    may_close(&engine, &records)?;
    let closed = format!("this epoch is closed, and goes on in {}\n", new.display());
    if read_if_there(&old.join("closed"))?.is_some_and(|before| before != closed.as_bytes()) {
        refuse_closed(old)?;
    }
    let mut begun = Files::hold(new, Access::Write)?;
    if begun.is_begun()? {
        return Err(format!("{}: a node began here already", new.display()).into());
    }
    if let (Some(stakes), false) = (read_if_there(&old.join("stakes"))?, new.join("stakes").exists()) {
        replace(new, "stakes", &stakes)?;
    }
    let first = records.iter().filter(|record| record.round() == RoundNumber(0)).map(Record::reference);
    let epoch = Epoch { number: epoch.number + 1, before: epoch.before.iter().copied().chain(first).collect() };
    let list = share_again(&engine, &records)?;
    replace(new, "share-again", list.concat().as_bytes())?;
    replace(new, "epoch", epoch.text().as_bytes())?;
    // From here on the old epoch is closed, and only this goes on in the new folder.
    replace(old, "closed", closed.as_bytes())?;
    begun.begin()?;
    println!("epoch {} is begun in {}; {} changes to share again", epoch.number, new.display(), list.len());
    let waited = waiting::kept(old)?;
    if !waited.is_empty() {
        eprintln!("{} records still waited and were never stored: what they share is not on the list", waited.len());
    }
    Ok(())
}

/// An epoch may be closed once owners of quorum stake have marked a block, or nothing more can be stored.
fn may_close(engine: &Engine, records: &[Record]) -> Told<()> {
    let committee = engine.committee();
    let marked: Owners = records.iter().filter(|record| record.is_marked()).map(Record::author).collect();
    let stake: Stake = marked.iter().filter_map(|owner| committee.stake(owner)).sum();
    // An entry has 8 bytes in front of its record.
    let full = records.len() == MOST_BLOCKS || ROOM < engine.parts().store.len() + 8 + LONGEST_RECORD;
    if full || stake >= committee.quorum() {
        return Ok(());
    }
    let whose = if marked.is_empty() { "nobody".to_string() } else { format!("owners {marked}") };
    let (blocks, quorum) = (records.len(), committee.quorum());
    Err(format!(
        "the epoch cannot be closed: the store has {blocks} blocks of {MOST_BLOCKS}, and {whose} marked one, stake {stake}; quorum begins at {quorum}"
    )
    .into())
}

/// The stored shares that are not final, a line each: its locator, its payload in hexadecimal digits, and the change that it needs, whose
/// locator is another in the new epoch if that is shared again too.
fn share_again(engine: &Engine, records: &[Record]) -> Told<Vec<String>> {
    let mut finals = BTreeSet::new();
    for stretch in engine.finals(Listed::Ordinary, READING) {
        finals.extend(stretch?.locators());
    }
    let mut lines = Vec::new();
    for record in records {
        for (locator, payload) in record.shares().filter(|(locator, _)| !finals.contains(locator)) {
            let needs = needed(payload).map_or(String::new(), |needed| format!(" needs {needed}"));
            lines.push(format!("{locator} {}{needs}\n", hex(payload)));
        }
    }
    Ok(lines)
}

/// The change that a payload needs: one that begins with 1 has its locator next.
fn needed(payload: &[u8]) -> Option<Locator> {
    let (first, rest) = payload.split_first()?;
    rest.first_chunk().filter(|_| *first == 1).map(Locator::from_bytes)
}
