//! 01, "Range map": the pending table and its words.

use super::committee::{Committee, Votes};
use super::record::number;
use super::store::Stores;

/// Bytes of the table that crosses: 6,145 words.
pub const TABLE_BYTES: usize = 8 * 6145;

/// One item: a stretch of shares of the block at a position, with its votes.
#[derive(Clone, Copy, PartialEq, Eq, Debug)]
pub struct Item {
    pub position: u64,
    pub start: u64,
    pub end: u64,
    pub votes: Votes,
}

/// Items, ascending by position and start.
#[derive(Clone, PartialEq, Eq, Debug, Default)]
pub struct Table {
    pub items: Vec<Item>,
}

impl Table {
    /// What a lent table holds, or 11.
    pub fn read(committee: &Committee, stores: &Stores, table: &[u8]) -> Result<Table, u64> {
        let words: Vec<u64> = table.chunks(8).map(number).collect();
        if table.len() != TABLE_BYTES || words[0] > capacity(words.len()) as u64 {
            return Err(11);
        }
        let (used, rest) = words[1..].split_at(6 * words[0] as usize);
        let items = used.chunks(6).map(|w| Item {
            position: w[0],
            start: w[1],
            end: w[2],
            votes: Votes { voters: w[3] as u128 | (w[4] as u128) << 64, stake: w[5] },
        });
        let table = Table { items: items.collect() };
        let ordered = table.items.windows(2).all(|w| (w[0].position, w[0].end) <= (w[1].position, w[1].start));
        let each = table.items.iter().all(|item| item.in_order(committee, stores));
        if ordered && each && rest.iter().all(|word| *word == 0) {
            Ok(table)
        } else {
            Err(11)
        }
    }

    pub fn bytes(&self) -> Vec<u8> {
        let mut out = Vec::with_capacity(TABLE_BYTES);
        out.extend((self.items.len() as u64).to_le_bytes());
        for item in &self.items {
            let (low, high) = (item.votes.voters as u64, (item.votes.voters >> 64) as u64);
            for word in [item.position, item.start, item.end, low, high, item.votes.stake] {
                out.extend(word.to_le_bytes());
            }
        }
        out.resize(TABLE_BYTES, 0);
        out
    }

    /// Cuts the item of this block that `offset` falls inside.
    pub fn cut(&mut self, position: u64, offset: u64) {
        let inside = |item: &Item| item.position == position && item.start < offset && offset < item.end;
        if let Some(i) = self.items.iter().position(inside) {
            let item = self.items[i];
            self.items[i].end = offset;
            self.items.insert(i + 1, Item { start: offset, ..item });
        }
    }

    pub fn insert(&mut self, item: Item) {
        let after = |other: &&Item| (other.position, other.start) < (item.position, item.start);
        self.items.insert(self.items.iter().take_while(after).count(), item);
    }

    /// The item that starts at an offset of a block.
    pub fn starting(&self, position: u64, offset: u64) -> Option<Item> {
        self.items.iter().copied().find(|item| (item.position, item.start) == (position, offset))
    }

    /// The index of the item that holds an offset of a block.
    pub fn find(&self, position: u64, offset: u64) -> Option<usize> {
        self.items.iter().position(|item| item.position == position && item.start <= offset && offset < item.end)
    }
}

impl Item {
    fn in_order(&self, committee: &Committee, stores: &Stores) -> bool {
        let Some(stored) = stores.at(self.position) else { return false };
        let count = stored.block.statements.len() as u64;
        let shares = self.start < self.end && self.end <= count && (self.start..self.end).all(|o| stored.block.shares(o));
        shares
            && committee.knows_all(self.votes.voters)
            && self.votes.voters >> stored.block.reference.author & 1 == 1
            && self.votes.stake == committee.stake_of(self.votes.voters)
    }
}

/// The most items that a table of this many words holds.
pub fn capacity(words: usize) -> usize {
    (words - 1) / 6
}
