//! A node: the model, an engine and an engine with the index, fed alike.

use std::collections::BTreeSet;

use lomkhvide::{Engine, Event as Told, Outcome as Became, Parts, Refusal};

use crate::compare::{same, same_bytes, Outcome};
use crate::model::committee::Committee;
use crate::model::feed::{Event, Kind, State, EVENT_BYTES};
use crate::model::index::afresh;
use crate::model::record::{Locator, Reference};

/// The bytes of each store.
pub const ROOM: usize = 1 << 18;

pub struct Node {
    /// What the model holds.
    pub state: State,
    pub plain: Engine,
    /// The same with the index, at one node in three: its check takes most of the time.
    pub indexed: Option<Engine>,
    /// Records, by number, that wait for one that they include.
    pub waiting: BTreeSet<usize>,
    /// What was found final so far, in the old reading and in the new one.
    pub finals: [BTreeSet<Locator>; 2],
    kept: Option<Box<Kept>>,
}

/// The files of a node, and what was known when they were written.
struct Kept {
    store: Vec<u8>,
    table: Vec<u8>,
    index: Option<Vec<u64>>,
    waiting: BTreeSet<usize>,
    finals: [BTreeSet<Locator>; 2],
    state: State,
}

/// An event in the model's words.
fn event(told: &Told) -> Event {
    let kind = match told.outcome {
        Became::Processed => Kind::Processed,
        Became::Late => Kind::Late,
        Became::Unknown => Kind::Unknown,
    };
    Event { kind, statement: told.statement, offset: told.locator.offset() }
}

impl Node {
    pub fn new(committee: &lomkhvide::Committee, number: usize) -> Node {
        Node {
            state: State::default(),
            plain: Engine::new(committee.clone(), ROOM),
            indexed: (number % 3 == 0).then(|| Engine::with_index(committee.clone(), ROOM)),
            waiting: BTreeSet::new(),
            finals: Default::default(),
            kept: None,
        }
    }

    pub fn stores(&self, block: &Reference) -> bool {
        self.state.stores.get(block).is_some()
    }

    /// Feeds a record to all three: how many events it had, or its refusal.
    pub fn feed(&mut self, committee: &Committee, record: &[u8]) -> Result<Result<Vec<Event>, u64>, String> {
        let right = self.state.feed(committee, ROOM, EVENT_BYTES, record);
        let indexed = self.indexed.iter_mut().map(|engine| ("engine with the index", engine));
        for (side, engine) in [("engine", &mut self.plain)].into_iter().chain(indexed) {
            let told = engine.feed(record).map(|told| told.iter().map(event).collect()).map_err(Refusal::number);
            same("feed", side, &told, &right)?;
        }
        Ok(right)
    }

    pub fn engines(&self) -> impl Iterator<Item = (&'static str, &Engine)> {
        [("engine", &self.plain)].into_iter().chain(self.indexed.iter().map(|engine| ("engine with the index", engine)))
    }

    /// Store and table of the engines are the model's.
    pub fn same_memory(&self) -> Outcome {
        let (store, table) = (self.state.stores.layout(), self.state.table.bytes());
        for (side, engine) in self.engines() {
            let parts = engine.parts();
            same_bytes(format_args!("{side}: store"), parts.store, &store)?;
            same_bytes(format_args!("{side}: table"), parts.table, &table[..parts.table.len()])?;
            same(format_args!("{side}: items"), side, parts.table.len(), 8 + 48 * self.state.table.items.len())?;
        }
        Ok(())
    }

    /// A new node that catches up on this one's records by one call has the same memory.
    fn caught_up(&self) -> Outcome {
        let mut other = Engine::new(self.plain.committee().clone(), ROOM);
        let records = self.plain.records().map(|(_, record)| record);
        let fed = other.feed_all(records).map_err(|refusal| format!("feed_all is refused: {refusal}"))?;
        same("fed by one call", "engine", fed.iter().filter(|told| told.is_ok()).count(), self.state.stores.blocks.len())?;
        same_bytes("the store by one call", other.parts().store, self.plain.parts().store)?;
        same_bytes("the table by one call", other.parts().table, self.plain.parts().table)
    }

    /// Writes the files. The index is the one worked out afresh.
    pub fn keep(&mut self) -> Outcome {
        self.same_memory()?;
        self.caught_up()?;
        let Parts { store, table, .. } = self.plain.parts();
        let index = self.indexed.as_ref().and_then(|engine| engine.parts().index).map(<[u64]>::to_vec);
        if let Some(index) = &index {
            same("the index", "engine", index, &afresh(&self.state.stores))?;
        }
        self.kept = Some(Box::new(Kept {
            store: store.to_vec(),
            table: table.to_vec(),
            index,
            waiting: self.waiting.clone(),
            finals: self.finals.clone(),
            state: self.state.clone(),
        }));
        Ok(())
    }

    /// Is killed, and starts again from its files.
    pub fn kill(&mut self, committee: &lomkhvide::Committee, number: usize) -> Outcome {
        let Some(kept) = self.kept.take() else {
            *self = Node::new(committee, number);
            return Ok(());
        };
        let open = |index| Engine::open(committee.clone(), ROOM, Parts { store: &kept.store, table: &kept.table, index });
        let told = |refusal: Refusal| format!("what was kept is refused: {refusal}");
        self.plain = open(None).map_err(told)?;
        self.indexed = kept.index.as_deref().map(|index| open(Some(index))).transpose().map_err(told)?;
        self.waiting = kept.waiting.clone();
        self.finals = kept.finals.clone();
        self.state = kept.state.clone();
        self.kept = Some(kept);
        self.same_memory()
    }
}
