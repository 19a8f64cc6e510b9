//! The node: an engine, its files, and the records that wait.

use std::collections::HashSet;
use std::io::{self, Write};
use std::path::Path;

use lomkhvide::{Engine, Fed, Listed, Outcome, Reading, Record, Reference, Refusal};

use crate::epoch::{self, Epoch};
use crate::files::{Access, Files, ROOM, Told, replace};
use crate::input::Input;
use crate::trust;
use crate::waiting::{self, Arrived, Lack, MOST_BYTES, MOST_RECORDS, Waiting};

/// What a reject means in this network: nothing, or that its owner withdraws.
pub const READING: Reading = Reading::Old;

/// The most records that are fed, and then kept, at a time.
const BATCH: usize = 256;

/// The longest record that a node takes, one for the whole network: so that no owner's single record fills a store, and all nodes take the
/// same ones.
pub const LONGEST_RECORD: usize = 1 << 20;

/// The blocks that a store holds.
pub const MOST_BLOCKS: usize = 1024;

/// What became of the records so far.
#[derive(Default)]
struct Count {
    read: usize,
    stored: usize,
    before: usize,
    refused: usize,
}

pub struct Node {
    pub engine: Engine,
    files: Files,
    epoch: Epoch,
    /// The references of the stored blocks.
    stored: HashSet<Reference>,
    waiting: Waiting,
    count: Count,
    /// Records that were stored since the state was kept.
    unkept: usize,
    arrived: u64,
    said_nearly_full: bool,
    /// The first record that did not fit the store: nothing more is taken.
    pub full: Option<String>,
}

impl Node {
    /// Opens a folder. What waited when the node was stopped is tried again.
    pub fn open(folder: &Path) -> Told<Node> {
        let files = Files::open(folder, Access::Write)?;
        epoch::refuse_closed(folder)?;
        let (engine, epoch) = (files.engine()?, Epoch::read(folder)?);
        let stored = engine.records().map(|(_, record)| record.reference()).collect();
        let waiting = waiting::kept(folder)?;
        let mut node = Node {
            engine,
            files,
            epoch,
            stored,
            waiting: Waiting::default(),
            count: Count::default(),
            unkept: 0,
            arrived: 0,
            said_nearly_full: false,
            full: None,
        };
        println!("opened {} blocks, {} waiting", node.stored.len(), waiting.len());
        let name = |record: &Record| format!("a record that waited, {:#},", record.reference());
        let batch = waiting.into_iter().map(|record| node.arrive(name(&record), record)).collect();
        node.take(batch)?;
        Ok(node)
    }

    fn arrive(&mut self, name: String, record: Record) -> Arrived {
        self.arrived += 1;
        Arrived { order: self.arrived, name, record }
    }

    /// Takes all that comes. What came before an error is kept before the error is told.
    pub fn run(&mut self, input: &mut Input) -> Told<()> {
        let mut batch = Vec::new();
        let end = loop {
            match input.next() {
                Ok(Some((file, bytes))) => {
                    self.count.read += 1;
                    let name = match file {
                        Some(file) => format!("record {} ({})", self.count.read, file.display()),
                        None => format!("record {}", self.count.read),
                    };
                    batch.extend(self.admit(name, &bytes));
                }
                Ok(None) => break Ok(()),
                Err(error) => break Err(format!("record {}: {error}", self.count.read + 1).into()),
            }
            if batch.len() == BATCH || input.pauses() {
                self.take(std::mem::take(&mut batch))?;
                self.keep()?;
                if self.full.is_some() {
                    return Ok(());
                }
            }
        };
        self.take(batch)?;
        self.keep()?;
        end
    }

    /// A record, unless it is refused before the engine sees it.
    fn admit(&mut self, name: String, bytes: &[u8]) -> Option<Arrived> {
        if bytes.len() > LONGEST_RECORD {
            self.refuse(&name, &format!("it has {} bytes, and {LONGEST_RECORD} is the most here", bytes.len()));
            return None;
        }
        let record = match Record::read(bytes) {
            Ok(record) => record,
            Err(refusal) => {
                self.refuse(&name, &refusal.to_string());
                return None;
            }
        };
        let trusted = trust::verified(&record, self.epoch.number).and_then(|_| self.epoch.admits(&record));
        if let Err(why) = trusted {
            self.refuse(&name, &why);
            return None;
        }
        Some(self.arrive(name, record))
    }

    fn refuse(&mut self, name: &str, why: &str) {
        self.count.refused += 1;
        eprintln!("{name} is refused: {why}");
    }

    /// Feeds records, and those that waited for them, until nothing that waits can be stored.
    fn take(&mut self, mut batch: Vec<Arrived>) -> Told<()> {
        while !batch.is_empty() {
            // Rounds fall with every include: in this order an include comes before those that have it.
            batch.sort_by_key(|arrived| (arrived.record.round(), arrived.order));
            let told = self.engine.feed_all(batch.iter().map(|arrived| &arrived.record))?;
            let mut freed = Vec::new();
            for (arrived, told) in batch.into_iter().zip(told) {
                self.note(arrived, told, &mut freed);
            }
            batch = Vec::new();
            for arrived in freed {
                match self.lack(&arrived.record) {
                    Some(lack) => self.wait(arrived, lack),
                    None => batch.push(arrived),
                }
            }
        }
        Ok(())
    }

    /// Notes what became of a record; those that waited for it are free.
    fn note(&mut self, arrived: Arrived, told: Fed, freed: &mut Vec<Arrived>) {
        match told {
            Ok(events) => {
                self.count.stored += 1;
                self.unkept += 1;
                let reference = arrived.record.reference();
                self.stored.insert(reference);
                freed.extend(self.waiting.take(Lack::Block(reference)));
                if events.iter().any(|event| event.outcome == Outcome::Processed) {
                    freed.extend(self.waiting.take(Lack::Room));
                }
            }
            Err(Refusal::StoredAlready) => self.count.before += 1,
            Err(Refusal::IncludeNotStored) => match self.lack(&arrived.record) {
                Some(lack) => self.wait(arrived, lack),
                None => freed.push(arrived),
            },
            Err(Refusal::TableFull) => self.wait(arrived, Lack::Room),
            Err(Refusal::StoreFull) => {
                self.count.refused += 1;
                self.full.get_or_insert(arrived.name);
            }
            Err(refusal) => self.refuse(&arrived.name, &refusal.to_string()),
        }
    }

    /// The first include that is not stored.
    fn lack(&self, record: &Record) -> Option<Lack> {
        record.includes().find(|include| !self.stored.contains(include)).map(Lack::Block)
    }

    fn wait(&mut self, arrived: Arrived, lack: Lack) {
        if self.waiting.has(&arrived.record) {
            self.count.before += 1;
            return;
        }
        for refused in self.waiting.put(arrived, lack) {
            let why = format!("of more than {MOST_RECORDS} records, or {MOST_BYTES} bytes, that wait it has waited longest");
            self.refuse(&refused.name, &why);
        }
    }

    /// Keeps the state, then what waits, and says how far it has come. A record that is stored and still in `waiting`, since the node was
    /// stopped between the two, is found to be stored when it is tried again (23).
    pub fn keep(&mut self) -> Told<()> {
        if self.unkept == 0 && !self.waiting.changed {
            return Ok(());
        }
        if self.unkept > 0 {
            self.files.keep(&self.engine)?;
            self.unkept = 0;
        }
        if self.waiting.changed {
            replace(&self.files.folder, "waiting", &self.waiting.to_bytes())?;
            self.waiting.changed = false;
        }
        let Count { read, stored, before, refused } = self.count;
        let (blocks, waiting) = (self.stored.len(), self.waiting.len());
        let mut out = io::stdout().lock();
        writeln!(
            out,
            "kept {blocks} blocks: {read} read, {stored} stored, {before} had before, {refused} refused, {waiting} waiting"
        )?;
        out.flush()?;
        let used = self.engine.parts().store.len();
        if !self.said_nearly_full && self.full.is_none() && (blocks >= MOST_BLOCKS / 8 * 7 || used >= ROOM / 8 * 7) {
            self.said_nearly_full = true;
            eprintln!(
                "the store is nearly full ({blocks} of {MOST_BLOCKS} blocks, {used} of {ROOM} bytes): the owners mark their blocks from now on"
            );
        }
        Ok(())
    }

    /// What is final, and what is waited for.
    pub fn print_lists(&self) -> Told<()> {
        print_finals(&self.engine)?;
        for (block, records) in self.waiting.lacking() {
            println!("wanted {block} by {records} records that wait");
        }
        Ok(())
    }
}

pub fn print_finals(engine: &Engine) -> Told<()> {
    for stretch in engine.finals(Listed::Ordinary, READING) {
        let stretch = stretch?;
        println!("final {}..{} by {} blocks, stake {}", stretch.first, stretch.end, stretch.blocks, stretch.stake);
    }
    Ok(())
}
