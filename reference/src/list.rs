//! A list: a committee, the length of the store that is lent, and the records that are fed, good and bad.

use crate::model::record::{number, Block};

#[derive(Clone, Debug, PartialEq, Eq)]
pub struct List {
    pub stakes: Vec<u64>,
    pub store: usize,
    pub records: Vec<Vec<u8>>,
}

impl List {
    /// A list with a store that holds all its records and some bytes more.
    pub fn roomy(stakes: Vec<u64>, records: Vec<Vec<u8>>) -> List {
        let mut list = List { stakes, store: 0, records };
        list.store = list.needed() + 100;
        list
    }

    /// The length of a store that all its records fill.
    pub fn needed(&self) -> usize {
        self.records.iter().map(|record| record.len() + 8).sum::<usize>() + 16
    }

    /// The stakes as they cross.
    pub fn stake_bytes(&self) -> Vec<u8> {
        self.stakes.iter().flat_map(|stake| stake.to_le_bytes()).collect()
    }

    /// As the program `listing` reads it: a member count byte, the stakes, each record after its length. A committee of more than
    /// 254 has no such form.
    pub fn to_listing(&self) -> Vec<u8> {
        let mut out = vec![self.stakes.len().min(254) as u8];
        out.extend(self.stake_bytes());
        for record in &self.records {
            out.extend((record.len() as u32).to_le_bytes());
            out.extend(record);
        }
        out
    }

    /// The list that an input of `listing` holds; none where its framing is broken.
    pub fn from_listing(bytes: &[u8], store: usize) -> Option<List> {
        let (count, mut rest) = bytes.split_first()?;
        let stakes = if *count == 255 {
            crate::model::committee::COURSE.to_vec()
        } else {
            let (stakes, after) = rest.split_at_checked(8 * *count as usize)?;
            rest = after;
            stakes.chunks(8).map(number).collect()
        };
        let mut records = Vec::new();
        while !rest.is_empty() {
            let (length, after) = rest.split_at_checked(4)?;
            let (record, after) = after.split_at_checked(number(length) as usize)?;
            records.push(record.to_vec());
            rest = after;
        }
        Some(List { stakes, store, records })
    }

    /// The list in words and in hex, for a reader of a failure.
    pub fn describe(&self) -> String {
        let mut out = format!("stakes {:?}, a store of {} bytes\n", self.stakes, self.store);
        for (i, record) in self.records.iter().enumerate() {
            out += &format!("record {}: {}\n", i + 1, hex(record));
            match Block::decode(record) {
                Some(block) => out += &format!("  {block:?}\n"),
                None => out += "  malformed\n",
            }
        }
        out + &format!("as `listing` reads it: {}\n", hex(&self.to_listing()))
    }
}

pub fn hex(bytes: &[u8]) -> String {
    bytes.iter().map(|byte| format!("{byte:02x}")).collect()
}
