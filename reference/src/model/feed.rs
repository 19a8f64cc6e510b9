//! 01, "Aggregator" and the order of refusals: feeding a record.

use super::committee::{Committee, Votes};
use super::mistake::Mistake;
use super::record::{Block, Reference, Statement};
use super::store::Stores;
use super::table::{capacity, Item, Table, TABLE_BYTES};

/// Bytes of the event slice that crosses: 8,192 words.
pub const EVENT_BYTES: usize = 8 * 8192;

#[derive(Clone, Copy, PartialEq, Eq, Debug, PartialOrd, Ord)]
pub enum Kind {
    Processed = 1,
    Late = 2,
    Unknown = 3,
}

#[derive(Clone, Copy, PartialEq, Eq, Debug)]
pub struct Event {
    pub kind: Kind,
    pub statement: u64,
    pub offset: u64,
}

/// What the store and the table hold.
#[derive(Clone, PartialEq, Eq, Debug, Default)]
pub struct State {
    pub stores: Stores,
    pub table: Table,
}

impl State {
    /// What lent memory holds, or 10, 11.
    pub fn read(committee: &Committee, store: &[u8], table: &[u8]) -> Result<State, u64> {
        let stores = Stores::read(committee, store)?;
        let table = Table::read(committee, &stores, table)?;
        Ok(State { stores, table })
    }

    /// Feeds a record, lent a store and an event slice of these lengths; its events, or 20 to 30, 15, 13, 14. An event slice that crosses as bytes
    /// is 8,192 words.
    pub fn feed(&mut self, committee: &Committee, store: usize, events: usize, record: &[u8]) -> Result<Vec<Event>, u64> {
        self.feed_with(committee, store, (events == EVENT_BYTES).then_some(events / 8), record)
    }

    /// The same with so many words for events; none are too few for every record.
    pub fn feed_with(
        &mut self,
        committee: &Committee,
        store: usize,
        words: Option<usize>,
        record: &[u8],
    ) -> Result<Vec<Event>, u64> {
        let mut block = self.stores.check(committee, record)?;
        if committee.makes(Mistake::ShareOffsets) {
            block.statements.sort_by_key(|statement| !matches!(statement, Statement::Share(_)));
        }
        if words.is_none_or(|words| 3 * room(&block) > words as u64) {
            return Err(15);
        }
        if self.stores.is_full(store, record) {
            return Err(13);
        }
        let mut table = self.table.clone();
        let told = process(committee, &self.stores, &mut table, &block)?;
        self.table = table;
        self.stores.accept(block, record);
        Ok(told)
    }
}

/// The room that 15 asks for: each accept and each offset of each range.
fn room(block: &Block) -> u64 {
    let of = |statement: &Statement| match statement {
        Statement::Accept(_) => 1,
        Statement::Range(_, start, end) => end - start,
        _ => 0,
    };
    block.statements.iter().map(of).sum()
}

fn process(committee: &Committee, stores: &Stores, table: &mut Table, block: &Block) -> Result<Vec<Event>, u64> {
    let capacity = capacity(TABLE_BYTES / 8);
    let author = block.reference.author;
    for (start, end) in block.shared_ranges() {
        let mut votes = Votes::default();
        committee.vote(&mut votes, author);
        table.insert(Item { position: stores.used(), start, end, votes });
        if table.items.len() > capacity {
            return Err(14);
        }
    }
    let mut events = Vec::new();
    for (index, statement) in block.statements.iter().enumerate() {
        let (reference, start, mut end) = match statement {
            _ if block.marked && committee.makes(Mistake::MarkedBlock) => continue,
            Statement::Accept(locator) => (locator.block, locator.offset, locator.offset + 1),
            Statement::Range(reference, start, end) => (*reference, *start, *end),
            _ => continue,
        };
        let voted = stored(stores, block, &reference);
        if start == end {
            match voted.and_then(|(position, _)| table.starting(position, start)) {
                Some(item) if committee.makes(Mistake::EmptyRange) => end = item.end,
                _ => continue, // an empty range does nothing
            }
        }
        if let Some((position, _)) = voted {
            table.cut(position, start);
            table.cut(position, end);
            if table.items.len() > capacity {
                return Err(14);
            }
        }
        let mut offset = start;
        while offset < end {
            let item = voted.and_then(|(position, _)| table.find(position, offset));
            let Some(i) = item else {
                let late = voted.is_some_and(|(_, block)| block.shares(offset));
                let kind = if late { Kind::Late } else { Kind::Unknown };
                events.push(Event { kind, statement: index as u64, offset });
                offset += 1;
                continue;
            };
            // The whole item gets the vote: it was cut at both ends of the range.
            let upto = table.items[i].end;
            if committee.vote(&mut table.items[i].votes, author) {
                let told = |offset| Event { kind: Kind::Processed, statement: index as u64, offset };
                events.extend((offset..upto).map(told));
                table.items.remove(i);
            }
            offset = upto;
        }
    }
    Ok(events)
}

/// A block by its reference, with its position: a stored one or the one being fed.
fn stored<'a>(stores: &'a Stores, fed: &'a Block, reference: &Reference) -> Option<(u64, &'a Block)> {
    if *reference == fed.reference {
        return Some((stores.used(), fed));
    }
    stores.get(reference).map(|stored| (stored.position, &stored.block))
}
