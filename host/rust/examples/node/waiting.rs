//! Records that cannot be stored yet, each under what it waits for, so that nothing else is looked at when that comes.

use std::collections::{BTreeMap, BTreeSet};
use std::path::Path;

use lomkhvide::{Record, Reference};

use crate::files::{Told, checksum, read_if_there};

/// The most records that wait, and the most bytes that they have together. Past either the oldest is refused.
pub const MOST_RECORDS: usize = 1024;
pub const MOST_BYTES: usize = 16 << 20;

/// A record that has come.
pub struct Arrived {
    /// Its place in the order of arrival.
    pub order: u64,
    /// What it is called in a message.
    pub name: String,
    pub record: Record,
}

/// What a record waits for.
#[derive(Clone, Copy, Debug, PartialEq, Eq, PartialOrd, Ord)]
pub enum Lack {
    /// A block that it includes.
    Block(Reference),
    /// Room in the pending table (14), which there is when a change leaves it.
    Room,
}

/// The records that waited when a folder was last kept.
pub fn kept(folder: &Path) -> Told<Vec<Record>> {
    let path = folder.join("waiting");
    let Some(bytes) = read_if_there(&path)? else { return Ok(vec![]) };
    Waiting::records_of(&bytes).ok_or_else(|| {
        format!("{}: it is damaged; without it the node goes on, and what waited has to come again", path.display()).into()
    })
}

#[derive(Default)]
pub struct Waiting {
    /// By order of arrival.
    records: BTreeMap<u64, (Lack, Arrived)>,
    by_lack: BTreeSet<(Lack, u64)>,
    by_reference: BTreeSet<(Reference, u64)>,
    bytes: usize,
    /// Whether it differs from what was kept.
    pub changed: bool,
}

impl Waiting {
    pub fn len(&self) -> usize {
        self.records.len()
    }

    /// Whether the same record waits already.
    pub fn has(&self, record: &Record) -> bool {
        let reference = record.reference();
        let mut same = self.by_reference.range((reference, 0)..=(reference, u64::MAX));
        same.any(|(_, order)| self.records[order].1.record == *record)
    }

    /// Takes a record in; gives those that are refused for it, the oldest first.
    pub fn put(&mut self, arrived: Arrived, lack: Lack) -> Vec<Arrived> {
        self.changed = true;
        self.bytes += arrived.record.as_bytes().len();
        self.by_lack.insert((lack, arrived.order));
        self.by_reference.insert((arrived.record.reference(), arrived.order));
        self.records.insert(arrived.order, (lack, arrived));
        let mut refused = Vec::new();
        while self.records.len() > MOST_RECORDS || self.bytes > MOST_BYTES {
            let Some(oldest) = self.records.keys().next() else { break };
            refused.extend(self.remove(*oldest));
        }
        refused
    }

    /// Takes out those that waited for this, in order of arrival.
    pub fn take(&mut self, lack: Lack) -> Vec<Arrived> {
        let orders: Vec<u64> = self.by_lack.range((lack, 0)..=(lack, u64::MAX)).map(|(_, order)| *order).collect();
        orders.into_iter().filter_map(|order| self.remove(order)).collect()
    }

    fn remove(&mut self, order: u64) -> Option<Arrived> {
        let (lack, arrived) = self.records.remove(&order)?;
        self.changed = true;
        self.bytes -= arrived.record.as_bytes().len();
        self.by_lack.remove(&(lack, order));
        self.by_reference.remove(&(arrived.record.reference(), order));
        Some(arrived)
    }

    /// The blocks that are waited for, and by how many records each.
    pub fn lacking(&self) -> BTreeMap<Reference, usize> {
        let mut lacking = BTreeMap::new();
        for (lack, _) in &self.by_lack {
            if let Lack::Block(block) = lack {
                *lacking.entry(*block).or_default() += 1;
            }
        }
        lacking
    }

    /// The file `waiting`: a checksum of the rest, and the records in order of arrival, each after its length (4 bytes).
    pub fn to_bytes(&self) -> Vec<u8> {
        let mut bytes = Vec::new();
        for (_, arrived) in self.records.values() {
            let record = arrived.record.as_bytes();
            bytes.extend((record.len() as u32).to_le_bytes());
            bytes.extend(record);
        }
        [&checksum(&bytes).to_le_bytes(), &bytes[..]].concat()
    }

    /// The records of such a file; none where it is damaged.
    pub fn records_of(bytes: &[u8]) -> Option<Vec<Record>> {
        let (sum, mut rest) = bytes.split_first_chunk()?;
        if u64::from_le_bytes(*sum) != checksum(rest) {
            return None;
        }
        let mut records = Vec::new();
        while let Some((length, after)) = rest.split_first_chunk() {
            let (record, after) = after.split_at_checked(u32::from_le_bytes(*length) as usize)?;
            records.push(Record::read(record).ok()?);
            rest = after;
        }
        rest.is_empty().then_some(records)
    }
}
