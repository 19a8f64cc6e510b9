//! How times grow: lists, the index and many records in one call on graphs that differ by one thing, in milliseconds and in passes over what is
//! read. Each time is taken in a process of its own, which gives up after a minute of the processor: then the table has a dash.

use std::collections::HashSet;
use std::process::{exit, Command};
use std::thread;
use std::time::Duration;

use reference::compare::Memory;
use reference::engine;
use reference::graphs;
use reference::list::List;
use reference::model::lent::STRETCH_BYTES;
use reference::model::loading::stored_shares;
use reference::model::record::{number, Block, Statement};
#[cfg(has_rust)]
use reference::rust::RustSide;

use crate::timing::{high_water, least_within, pass, processor_time, time};

/// A graph, by a name that it can be asked for with.
struct Row {
    name: &'static str,
    what: &'static str,
    owners: usize,
    blocks: fn() -> Vec<Block>,
}

/// Rows with the same columns, each of them a kind of time and its heading.
struct Table {
    title: &'static str,
    columns: &'static [(&'static str, &'static str)],
    rows: &'static [Row],
}

macro_rules! rows {
    ($($name:literal: $what:literal, $owners:literal owners, $blocks:expr;)*) => {
        &[$(Row { name: $name, what: $what, owners: $owners, blocks: || $blocks }),*]
    };
}

const TABLES: [Table; 4] = [
    Table {
        title: "Lists, in one call each, and the longer of the next questions from the start and after the last; in brackets passes over the store",
        columns: &[
            ("wide", "wide"),
            ("ordinary", "ordinary"),
            ("withdrawing", "wide, owners may withdraw"),
            ("next", "next of the wide list"),
            ("loadable", "loadable"),
            ("rust", "the Rust's list"),
        ],
        rows: rows! {
            "owners-4": "4 owners, 1,004 blocks", 4 owners, graphs::owners(4, 251);
            "owners-16": "16 owners, 976 blocks", 16 owners, graphs::owners(16, 61);
            "owners-64": "64 owners, 1,024 blocks", 64 owners, graphs::owners(64, 16);
            "owners-128": "128 owners, 1,024 blocks", 128 owners, graphs::owners(128, 8);
            "lone-votes-10000": "10,000 votes that nobody else makes", 4 owners, graphs::lone_votes(10_000);
            "lone-votes-20000": "20,000 of them", 4 owners, graphs::lone_votes(20_000);
            "lone-votes-40000": "40,000", 4 owners, graphs::lone_votes(40_000);
            "lone-votes-100000": "100,000", 4 owners, graphs::lone_votes(100_000);
            "lone-votes-400000": "400,000", 4 owners, graphs::lone_votes(400_000);
            "same-votes": "32,000 votes of all for the same, every other offset", 4 owners, graphs::same_votes();
            "lone-shares": "204 blocks of 100 lone shares", 4 owners, graphs::lone_shares();
            "needless-rejects": "1,000 blocks with 30 rejects each that nobody needs", 4 owners, graphs::needless_rejects();
            "early-votes": "1,000 blocks, one owner alone votes early in the order", 4 owners, graphs::early_votes();
        },
    },
    Table {
        title: "The check of the index (54), in brackets passes over its words",
        columns: &[("check", "check")],
        rows: rows! {
            "index-4": "4 owners, 1,004 blocks", 4 owners, graphs::owners(4, 251);
            "index-16": "16 owners, 976 blocks", 16 owners, graphs::owners(16, 61);
            "index-64": "64 owners, 1,024 blocks", 64 owners, graphs::owners(64, 16);
            "index-old-votes": "1,000 blocks, one owner votes for something old in each block", 4 owners, graphs::early_votes();
            "index-include-apart": "1,000 blocks, one include stands apart", 4 owners, graphs::include_apart();
        },
    },
    Table {
        title: "Votes that nobody else makes with the index, in brackets passes over its words",
        columns: &[("check", "check"), ("singly", "records fed singly, from fresh")],
        rows: rows! {
            "index-lone-votes": "44 blocks, 500 in each above round 0", 4 owners, graphs::lone_votes(20_000);
            "index-scattered": "8 blocks of 1,000 scattered accepts, 8 without", 4 owners, graphs::scattered(4, 4, 1000);
        },
    },
    Table {
        title: "Records in one call, from fresh; in brackets passes over the store that results, with the index over its words",
        columns: &[("at-once", "one call"), ("at-once-indexed", "with the index"), ("check", "check of that index")],
        rows: rows! {
            "records-4": "1,000 records of 4 owners", 4 owners, graphs::owners(4, 250);
            "records-64": "1,024 records of 64 owners", 64 owners, graphs::owners(64, 16);
        },
    },
];

/// A time with that of a pass over what is read, the bytes of that, and the number of locators found.
struct Taken {
    seconds: f64,
    pass: f64,
    bytes: usize,
    found: u64,
}

/// Prints the tables, of the row with this name or else of those whose name begins so.
pub fn tables(name: &str) {
    let exact = TABLES.iter().flat_map(|table| table.rows).any(|row| row.name == name);
    for table in TABLES {
        let is_asked = |row: &&Row| if exact { row.name == name } else { row.name.starts_with(name) };
        let rows: Vec<&Row> = table.rows.iter().filter(is_asked).collect();
        if !rows.is_empty() {
            println!("{}:\n", table.title);
            let headings: Vec<&str> = table.columns.iter().map(|(_, heading)| *heading).collect();
            println!("| graph | MB | {} |\n|---|---|{}", headings.join(" | "), "---|".repeat(headings.len()));
            print_rows(&table, &rows);
            println!();
        }
    }
}

fn print_rows(table: &Table, rows: &[&Row]) {
    // A graph of the same kind that is larger is not tried after one that took too long.
    let mut too_long = HashSet::new();
    for row in rows {
        let kind = row.name.trim_end_matches(|c: char| c.is_ascii_digit());
        let mut cells = Vec::new();
        for (column, _) in table.columns {
            let taken = if too_long.contains(&(kind, *column)) { None } else { limited(row.name, column) };
            if taken.is_none() {
                too_long.insert((kind, *column));
            }
            cells.push(taken);
        }
        let found = |i: usize| cells[i].as_ref().map(|taken| taken.found);
        if let (Some(engine), ("rust", Some(rust))) = (found(0), (table.columns.last().unwrap().0, found(cells.len() - 1))) {
            assert_eq!(engine, rust, "both find the same number");
        }
        let bytes = cells.iter().flatten().map(|taken| taken.bytes as f64).next().unwrap_or(f64::NAN);
        let texts: Vec<String> = table.columns.iter().zip(&cells).map(|((column, _), taken)| text(column, taken)).collect();
        println!("| {} | {:.2} | {} |", row.what, bytes * 1e-6, texts.join(" | "));
    }
}

fn text(column: &str, taken: &Option<Taken>) -> String {
    match taken {
        None => "-".into(),
        Some(taken) if column == "rust" => time(taken.seconds),
        Some(taken) => {
            let passes = taken.seconds / taken.pass;
            format!("{} ({passes:.*})", time(taken.seconds), if passes < 10.0 { 1 } else { 0 })
        }
    }
}

/// The time of a row and a column, by a process that gives up after a minute, or where it needs too much memory.
fn limited(row: &str, column: &str) -> Option<Taken> {
    let out = Command::new(std::env::current_exe().unwrap()).args(["growth-cell", row, column]).output().unwrap();
    let text = String::from_utf8_lossy(&out.stdout);
    let words: Vec<f64> = text.lines().last()?.split(' ').map_while(|word| word.parse().ok()).collect();
    match words[..] {
        [seconds, pass, bytes, found] if out.status.success() => {
            Some(Taken { seconds, pass, bytes: bytes as usize, found: found as u64 })
        }
        _ => None,
    }
}

/// That process.
pub fn cell(name: &str, column: &str) {
    let row = TABLES.iter().flat_map(|table| table.rows).find(|row| row.name == name).expect("a row");
    let blocks = (row.blocks)();
    let Taken { seconds, pass, bytes, found } = match column {
        "check" | "singly" | "at-once-indexed" => with_index(row, column, &blocks),
        "at-once" => at_once(row, &blocks),
        _ => list(row, column, &blocks),
    };
    println!("{seconds} {pass} {bytes} {found}");
}

/// Ends this process a minute of the processor from now, or where it holds more than four gigabytes.
fn give_up_later() {
    let began = processor_time();
    thread::spawn(move || loop {
        thread::sleep(Duration::from_millis(50));
        if processor_time() - began > 60.0 || high_water("/proc/self/status").unwrap_or(0) > 4 << 20 {
            exit(1);
        }
    });
}

/// The least time of as many runs as a second holds, with what it found.
fn taken(bytes: &[u8], mut run: impl FnMut() -> u64) -> Taken {
    let pass = pass(bytes);
    give_up_later();
    let mut found = 0;
    let seconds = least_within(Duration::from_secs(1), || found = run());
    Taken { seconds, pass, bytes: bytes.len(), found }
}

/// A list or a question over the store.
fn list(row: &Row, column: &str, blocks: &[Block]) -> Taken {
    let stores = graphs::stored(blocks);
    let (stakes, store) = (List::roomy(vec![1; row.owners], vec![]).stake_bytes(), stores.layout());
    let mut out = vec![0; STRETCH_BYTES << 15];
    match column {
        "wide" => taken(&store, || locators(engine::wide_stretches(&stakes, &store, &[], &mut out), &out)),
        "ordinary" => taken(&store, || locators(engine::final_stretches(&stakes, &store, &[], &mut out), &out)),
        "withdrawing" => taken(&store, || locators(engine::wide_stretches_withdrawing(&stakes, &store, &[], &mut out), &out)),
        "next" => next(&stakes, &store),
        "loadable" => {
            let mut places = vec![0; 2 * stored_shares(&stores).len()];
            taken(&store, || engine::loadable(&stakes, &store, &mut places).expect("room for every share"))
        }
        _ => rust(row, blocks, &store),
    }
}

/// The next question from the start and after the last locator of the list: the one that takes longer.
fn next(stakes: &[u8], store: &[u8]) -> Taken {
    let mut out = vec![0; STRETCH_BYTES << 15];
    let count = engine::wide_stretches(stakes, store, &[], &mut out).expect("a store in order") as usize / 2;
    let last = out.chunks(STRETCH_BYTES).take(count).last();
    let end = |stretch: &[u8]| [&stretch[..48], &(number(&stretch[56..64]) - 1).to_le_bytes()].concat();
    let after = last.map_or(vec![], end);
    let mut found = [0; 56];
    let mut asked =
        |after: &[u8]| taken(store, || engine::next_wide(stakes, store, after, &mut found).expect("a store in order"));
    let (first, none) = (asked(&[]), asked(&after));
    assert_eq!(none.found, 0, "nothing follows the last");
    match first.seconds > none.seconds {
        true => first,
        false => none,
    }
}

/// The locators of the stretches that a call has told of.
fn locators(answer: engine::Answer, out: &[u8]) -> u64 {
    let answer = answer.expect("a store in order");
    assert_eq!(answer % 2, 0, "the whole list in one call");
    let offsets = |stretch: &[u8]| number(&stretch[56..64]) - number(&stretch[48..56]);
    out.chunks(STRETCH_BYTES).take(answer as usize / 2).map(offsets).sum()
}

#[cfg(has_rust)]
fn rust(row: &Row, blocks: &[Block], store: &[u8]) -> Taken {
    let mut side = RustSide::new(&vec![1; row.owners]).expect("a committee");
    side.store_all(blocks);
    taken(store, || side.final_count() as u64)
}

#[cfg(not(has_rust))]
fn rust(_row: &Row, _blocks: &[Block], _store: &[u8]) -> Taken {
    exit(1);
}

/// Records and the memory that they are fed to, fresh.
struct Records {
    memory: Memory,
    records: Vec<Vec<u8>>,
    /// All of them, each after its length.
    bytes: Vec<u8>,
    /// The words for all their events.
    events: usize,
}

impl Records {
    fn of(row: &Row, blocks: &[Block]) -> Records {
        let list = List::roomy(vec![1; row.owners], blocks.iter().map(Block::encode).collect());
        let framed = |record: &Vec<u8>| [&(record.len() as u32).to_le_bytes(), &record[..]].concat();
        let votes = |statement: &Statement| match statement {
            Statement::Accept(_) => 1,
            Statement::Range(_, start, end) => (end - start) as usize,
            _ => 0,
        };
        let events = 3 * blocks.iter().flat_map(|block| &block.statements).map(votes).sum::<usize>();
        let bytes = list.records.iter().flat_map(framed).collect();
        Records { memory: Memory::new(&list), records: list.records, bytes, events }
    }

    /// Feeds all in one call, from fresh, with an index or without: the memory that results.
    fn at_once(&self, index: Option<&mut [u64]>) -> Memory {
        let mut memory = self.memory.clone();
        let (mut events, mut outcomes) = (vec![0; self.events], vec![0; self.records.len()]);
        let Memory { stakes, store, table, .. } = &mut memory;
        let answer = match index {
            Some(index) => {
                index[0] = 1;
                engine::feed_records_indexed(stakes, store, table, index, &mut events, &mut outcomes, &self.bytes)
            }
            None => engine::feed_records(stakes, store, table, &mut events, &mut outcomes, &self.bytes),
        };
        assert_eq!(answer, Ok(self.records.len() as u64));
        assert!(outcomes.iter().all(|outcome| outcome >> 63 == 0), "each record is accepted");
        memory
    }

    /// Feeds one by one with the index, from fresh: the words that it has then.
    fn singly(&self, index: &mut [u64]) -> u64 {
        let Memory { stakes, store, table, events } = &mut self.memory.clone();
        index[0] = 1;
        for record in &self.records {
            engine::feed_indexed(stakes, store, table, index, events, record).expect("each record is accepted");
        }
        index[0]
    }
}

fn at_once(row: &Row, blocks: &[Block]) -> Taken {
    let records = Records::of(row, blocks);
    taken(&graphs::stored(blocks).layout(), || records.at_once(None).store.len() as u64)
}

/// Words that the index of any row fits.
const INDEX_WORDS: usize = 1 << 25;

/// What is asked of a store with its index, in passes over the words of the index.
fn with_index(row: &Row, column: &str, blocks: &[Block]) -> Taken {
    let records = Records::of(row, blocks);
    let mut index = vec![0; INDEX_WORDS];
    if column == "at-once-indexed" {
        give_up_later();
    }
    let memory = records.at_once(Some(&mut index));
    index.truncate(index[0] as usize);
    let words = || index.iter().fold(0u64, |h, &word| h.wrapping_mul(31).wrapping_add(word));
    let (pass, bytes) = (least_within(Duration::from_millis(200), words), 8 * index.len());
    let taken = match column {
        "singly" => taken(&[], || records.singly(&mut index)),
        "at-once-indexed" => taken(&[], || records.at_once(Some(&mut index)).store.len() as u64),
        _ => check(&memory, &index),
    };
    Taken { pass, bytes, ..taken }
}

/// The check of the index, by a list of one byte, which is refused right after it (62), without that of the store, by a locator of three bytes.
fn check(memory: &Memory, index: &[u64]) -> Taken {
    let Memory { stakes, store, .. } = memory;
    let both = taken(&[], || engine::answer_sorted(stakes, store, index, &[0], &mut []).unwrap_err());
    assert_eq!(both.found, 62);
    let store = least_within(Duration::from_secs(1), || engine::payload_length(stakes, store, &[0; 3]));
    Taken { seconds: both.seconds - store, ..both }
}
