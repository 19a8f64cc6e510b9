//! A node that keeps its engine in files, so that nothing is lost when it is stopped at any moment.
//!
//!     cargo run --example node -- STATE RECORDS    # feeds every file of the folder RECORDS, by name
//!     cargo run --example node -- STATE < STREAM   # feeds records from standard input, each after its length (4 bytes)
//!     cargo run --example node -- --help
//!
//! A record is reported as stored, or as waiting for one that it includes, once it is kept; after a restart the node goes on with what
//! was kept, and records that come again are found to be stored before (23). `trust.rs` is the place for what the engine leaves to the host,
//! digests and signatures; `files.rs` says how the state is kept, `epoch.rs` what comes after a full store.

mod epoch;
mod files;
mod input;
mod node;
mod slip;
mod trust;
mod waiting;

use std::env;
use std::io;
use std::path::{Path, PathBuf};
use std::process::ExitCode;

use files::{Access, Files, Told};
use input::Input;
use node::Node;

const HELP: &str = "\
node STATE [RECORDS]     feeds the files of the folder RECORDS, by name, or records from standard input, each after its length (4 bytes)
node --list STATE        prints what is final, and changes nothing
node --slip STATE LOCATOR FOLDER
                         writes what a station is handed for a final change, as a line 'final' names it: slip, records and payload
node --epoch OLD NEW     closes the epoch of the folder OLD, once its blocks are marked or its store is full, and begins the next in NEW
node --help              prints this

STATE is a folder of its own. The committee is that of the file 'stakes' in it, or the course committee where there is none.

Lines on standard output: 'opened', then 'kept' whenever the state was kept, at the end 'final' for each stretch of final changes and
'wanted' for each block that records wait for. A record that is refused is named on standard error, with why.

Exit status: 0 all that came was taken, refused or is waiting; 1 an error, which names its file; 2 another command line than these;
3 the store is full";

const FULL: &str = "\
All that was stored is kept. What comes next:
  1. the owners make no further blocks in this epoch; those whose store still has room mark the blocks they make
  2. node --epoch OLD NEW closes this folder, which can still be listed, and begins NEW
  3. the owners begin again there with new blocks of round 0, and share again what NEW/share-again lists";

/// How a run ended that met no error.
enum End {
    Done,
    /// The store is full, from this record on.
    Full(String),
}

fn feed(state: &Path, records: Option<&PathBuf>) -> Told<End> {
    let mut input = match records {
        Some(folder) => Input::folder(folder)?,
        None => Input::stream(io::stdin()),
    };
    if !trust::CHECKED {
        eprintln!("warning: no digest and no signature is checked, so anybody can vote in every owner's name; see trust.rs");
    }
    let mut node = Node::open(state)?;
    if node.full.is_none() {
        node.run(&mut input)?;
    }
    node.print_lists()?;
    Ok(node.full.map_or(End::Done, End::Full))
}

fn list(state: &Path) -> Told<End> {
    let engine = Files::open(state, Access::Read)?.engine()?;
    node::print_finals(&engine)?;
    Ok(End::Done)
}

fn main() -> ExitCode {
    let words: Vec<PathBuf> = env::args_os().skip(1).map(PathBuf::from).collect();
    let word = |i: usize| words.get(i).and_then(|word| word.to_str());
    let end = match (word(0), &words[..]) {
        (Some("--help" | "-h"), _) => {
            println!("{HELP}");
            Ok(End::Done)
        }
        (Some("--list"), [_, state]) => list(state),
        (Some("--slip"), [_, state, locator, folder]) => {
            slip::hand_over(state, &locator.to_string_lossy(), folder).map(|_| End::Done)
        }
        (Some("--epoch"), [_, old, new]) => epoch::next(old, new).map(|_| End::Done),
        (first, [state, rest @ ..]) if rest.len() < 2 && !first.is_some_and(|word| word.starts_with('-')) => {
            feed(state, rest.first())
        }
        _ => {
            eprintln!("{HELP}");
            return ExitCode::from(2);
        }
    };
    match end {
        Ok(End::Done) => ExitCode::SUCCESS,
        Ok(End::Full(record)) => {
            eprintln!("the store is full (13): {record} and what came after it are not stored. {FULL}");
            ExitCode::from(3)
        }
        Err(error) => {
            eprintln!("node: {error}");
            ExitCode::FAILURE
        }
    }
}
