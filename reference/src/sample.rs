//! The fixed sample: small inputs of `listing` with the lines that the Rust's answers make. A program of the repository replays
//! them under `rt ci` with no Rust at hand.
//!
//! The first input is the course run. The others are the shortest of the generated lists that show something new: a kind of line, a number of a refusal, a size of
//! committee, a mark, an author with two blocks in a round. Every line is made of the Rust's answers alone; rejects, empty ranges
//! and refusals that `verify` does not know are left out.

use std::collections::BTreeSet;
use std::fs;
use std::path::Path;

use crate::compare::verify_refusal;
use crate::generate;
use crate::graphs::course_run;
use crate::list::List;
use crate::model::feed::{Event, Kind};
use crate::model::listing::{listing_wide, Lines};
use crate::model::record::{Block, Locator, Statement};
use crate::rust::{in_domain, Call, RustSide};

const SEED: u64 = 8;
const TRIED: u64 = 20_000;
const LONGEST: usize = 1_500;
const MOST_BYTES: usize = 16_000;
const MOST_LINES: usize = 40;

/// The sample: inputs by name, and what `listing` prints for each with the wide list.
pub fn make() -> Vec<(String, Vec<u8>, String)> {
    let lists = (0..TRIED).map(|n| generate::list(SEED, n)).filter(|list| list.to_listing().len() <= LONGEST);
    let mut lists: Vec<List> = lists.filter(|list| list.stakes.len() <= 128 && list.store >= list.needed()).collect();
    lists.sort_by_key(|list| list.to_listing().len());
    lists.insert(0, List::roomy(vec![1; 4], course_run().iter().map(Block::encode).collect()));
    let (mut seen, mut sample, mut bytes) = (BTreeSet::new(), Vec::new(), 0);
    for list in lists {
        let Some(text) = rust_listing(&list) else { continue };
        let shown = shows(&list, &text);
        let input = list.to_listing();
        // Long outputs would show nothing more (and 15, which the Rust does not know, asks for one).
        if shown.is_subset(&seen) || bytes + input.len() > MOST_BYTES || text.lines().count() > MOST_LINES {
            continue;
        }
        assert_eq!(text, listing_wide(&input, &[]), "the model prints what the Rust's answers make");
        seen.extend(shown);
        bytes += input.len();
        sample.push((format!("rust_{:02}.bin", sample.len() + 1), input, text));
    }
    sample
}

/// What a list shows: each kind of line with how often it comes, up to three times, and what its blocks are like.
fn shows(list: &List, text: &str) -> BTreeSet<String> {
    let mut shown = BTreeSet::from([format!("{} members", list.stakes.len().min(8))]);
    for kind in ["processed", "late", "unknown", "final"] {
        let count = text.lines().filter(|line| line.starts_with(kind)).count();
        shown.insert(format!("{kind} {}", count.min(3)));
    }
    for line in text.lines().filter(|line| line.starts_with("refused")) {
        shown.insert(line.split(' ').nth(2).unwrap().into());
    }
    let blocks: Vec<Block> = list.records.iter().filter_map(|record| Block::decode(record)).collect();
    let has = |kind: &str| text.lines().any(|line| line.starts_with(kind));
    let finals = has("final");
    shown.insert(format!(
        "{} members, processed {}, late {}, final {finals}",
        list.stakes.len().min(5),
        has("processed"),
        has("late")
    ));
    let twice = |a: &Block| {
        blocks.iter().filter(|b| (b.reference.author, b.reference.round) == (a.reference.author, a.reference.round)).count() > 1
    };
    shown.insert(format!(
        "marked {}, two blocks {}, final {finals}",
        blocks.iter().any(|b| b.marked),
        blocks.iter().any(twice)
    ));
    shown
}

/// The lines that the Rust's answers make; none where the list leaves its domain.
pub fn rust_listing(list: &List) -> Option<String> {
    let mut lines = Lines::default();
    let mut side = RustSide::new(&list.stakes).ok()?;
    let mut stored: Vec<Block> = Vec::new();
    for (i, record) in list.records.iter().enumerate() {
        let block = Block::decode(record)?;
        let round_0 = block.reference.round == 0;
        let is_stored = |reference| stored.iter().any(|stored| stored.reference == reference);
        // What `verify` does not look at: 20, 23 and 28; 21 and 22 of round 0; 30.
        let author_known = block.reference.author < list.stakes.len() as u64;
        let bare = block.includes.is_empty() && block.statements.is_empty();
        let most = |statement: &Statement| matches!(statement, Statement::Accept(locator) if locator.offset == u64::MAX);
        let accept_most = block.statements.iter().any(most);
        if (round_0 && !(bare && author_known)) || is_stored(block.reference) || accept_most {
            return None;
        }
        if !round_0 {
            if let Err(text) = side.verify(&block).ok()? {
                lines.refused(i + 1, verify_refusal(&text));
                continue;
            }
        }
        let includes_stored = block.includes.iter().all(|include| is_stored(*include));
        if !includes_stored || !block.statements.iter().all(in_domain) {
            return None;
        }
        let calls = side.feed(&block).ok()?;
        stored.push(block);
        let shares = |l: &Locator| stored.iter().any(|b| b.reference == l.block && b.shares(l.offset));
        let event = |(statement, call): &(u64, Call)| {
            let (kind, locator) = match call {
                Call::Processed(locator) => (Kind::Processed, locator),
                // Its unknown call covers late too: late is a stored share.
                Call::Unknown(locator) if shares(locator) => (Kind::Late, locator),
                Call::Unknown(locator) | Call::Duplicate(locator) => (Kind::Unknown, locator),
            };
            Event { kind, statement: *statement, offset: locator.offset }
        };
        lines.events(i + 1, &calls.iter().map(event).collect::<Vec<_>>());
    }
    let finals = side.final_list().ok()?;
    for (locator, blocks) in &finals {
        lines.finals(locator, blocks.len(), side.total_stake(blocks));
    }
    lines.end(side.pending().iter().map(|range| range.end - range.start).sum(), finals.len());
    Some(lines.text)
}

/// Writes the sample as the data of a program: its files, their names as arguments, and what it has to print.
pub fn write(folder: &Path, check: bool) -> Result<usize, String> {
    let sample = make();
    let names: String = sample.iter().map(|(name, ..)| format!("{name}\n")).collect();
    let text: String = sample.iter().map(|(name, _, text)| format!("== {name}\n{text}")).collect();
    let mut files = vec![("args".to_string(), names.into_bytes()), ("stdout".to_string(), text.into_bytes())];
    files.extend(sample.iter().map(|(name, input, _)| (format!("data/{name}"), input.clone())));
    fs::create_dir_all(folder.join("data")).map_err(|e| e.to_string())?;
    for (name, content) in &files {
        let path = folder.join(name);
        if check && fs::read(&path).ok().as_ref() != Some(content) {
            return Err(format!("{} is not what the Rust's answers make", path.display()));
        }
        if !check {
            fs::write(&path, content).map_err(|e| e.to_string())?;
        }
    }
    Ok(sample.len())
}
