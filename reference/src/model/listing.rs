//! 01, "Program `listing`": the lines that it prints; its committee for the member count 255 as in 02.

use super::committee::Committee;
use super::feed::{Event, Kind, State, EVENT_BYTES};
use super::finality::{Graph, Listed};
use super::mistake::Mistake;
use super::record::{number, Locator};
use super::stakes_file;

/// The store that `listing` lends.
pub const STORE_BYTES: usize = 65_536;
const LONGEST_RECORD: u64 = 8_192;

/// Lines as they are written, and the numbers of the last one.
#[derive(Default)]
pub struct Lines {
    pub text: String,
    pub accepted: usize,
    pub refused: usize,
    pub processed: usize,
}

impl Lines {
    pub fn refused(&mut self, record: usize, number: u64) {
        self.text += &format!("refused {record} {number}\n");
        self.refused += (record > 0) as usize;
    }

    pub fn events(&mut self, record: usize, events: &[Event]) {
        for event in events {
            let name = ["processed", "late", "unknown"][event.kind as usize - 1];
            self.text += &format!("{name} {record} {} {}\n", event.statement, event.offset);
            self.processed += (event.kind == Kind::Processed) as usize;
        }
        self.accepted += 1;
    }

    pub fn finals(&mut self, locator: &Locator, blocks: usize, stake: u64) {
        let block = locator.block;
        let digest: String = block.digest[..4].iter().map(|byte| format!("{byte:02x}")).collect();
        self.text += &format!("final {} {} {digest} {} {blocks} {stake}\n", block.round, block.author, locator.offset);
    }

    pub fn end(&mut self, pending: u64, finals: usize) {
        self.text += &format!("end {} {} {} {pending} {finals}\n", self.accepted, self.refused, self.processed);
    }
}

/// What an input holds: the committee, then the records, and whether its framing broke after them. `file` is the file of stakes.
pub fn read<'a>(input: &'a [u8], file: &[u8]) -> (Result<Committee, u64>, Vec<&'a [u8]>, bool) {
    let byte = |i: usize| input.get(i).copied().unwrap_or(0);
    let (committee, mut at) = match byte(0) {
        255 => (stakes_file::load(file), 1),
        count => {
            let stake = |i: usize| number(&[0, 1, 2, 3, 4, 5, 6, 7].map(|j| byte(1 + 8 * i + j)));
            (Committee::new(&(0..count as usize).map(stake).collect::<Vec<_>>()), 1 + 8 * count as usize)
        }
    };
    let mut records = Vec::new();
    while at < input.len() {
        let Some(length) = input.get(at..at + 4).map(number) else { return (committee, records, true) };
        let record = input.get(at + 4..at + 4 + length as usize);
        match record {
            Some(record) if length <= LONGEST_RECORD => records.push(record),
            _ => return (committee, records, true),
        }
        at += 4 + length as usize;
    }
    (committee, records, false)
}

/// What `listing` prints for an input beside a file of stakes; an absent one is empty.
pub fn listing(input: &[u8], file: &[u8]) -> String {
    mistaken_listing(input, file, None)
}

/// The same with every final locator in place of the final stored shares.
pub fn listing_wide(input: &[u8], file: &[u8]) -> String {
    listing_of(input, file, None, Listed::Wide)
}

/// What it would print, did it make this mistake.
pub fn mistaken_listing(input: &[u8], file: &[u8], mistake: Option<Mistake>) -> String {
    let list = if mistake == Some(Mistake::NoShareListed) { Listed::Wide } else { Listed::Ordinary };
    listing_of(input, file, mistake, list)
}

fn listing_of(input: &[u8], file: &[u8], mistake: Option<Mistake>, list: Listed) -> String {
    let (committee, records, broken) = read(input, file);
    let mut lines = Lines::default();
    let committee = match committee {
        Ok(committee) => committee.mistaken(mistake),
        Err(number) => {
            lines.refused(0, number);
            lines.end(0, 0);
            return lines.text;
        }
    };
    let mut state = State::default();
    for (i, record) in records.iter().enumerate() {
        match state.feed(&committee, STORE_BYTES, EVENT_BYTES, record) {
            Ok(events) => lines.events(i + 1, &events),
            Err(number) => lines.refused(i + 1, number),
        }
    }
    if broken {
        lines.refused(records.len() + 1, 20);
    }
    let finals = Graph::new(&committee, &state.stores).listed(list);
    for (locator, finality) in &finals {
        lines.finals(locator, finality.certifying.len(), finality.stake);
    }
    lines.end(state.table.items.iter().map(|item| item.end - item.start).sum(), finals.len());
    lines.text
}
