//! `list`: the lines of the program `listing`.

use std::io::Write;

use lomkhvide::{Event, Listed, Outcome};

use super::Fault;
use super::ask::refused;
use super::input::NoCommittee;
use super::json::{Json, object};
use super::run::Run;
use super::trouble::digits;

/// What `listing` prints where it takes no committee.
pub fn no_committee(refused: &NoCommittee, out: &mut dyn Write) -> Result<(), Fault> {
    writeln!(out, "refused 0 {}\nend 0 0 0 0 0", refused.number)?;
    Ok(())
}

fn word(event: &Event) -> &'static str {
    match event.outcome {
        Outcome::Processed => "processed",
        Outcome::Late => "late",
        Outcome::Unknown => "unknown",
    }
}

pub fn list(run: &Run, out: &mut dyn Write) -> Result<(), Fault> {
    let mut refusals = run.refused.iter().peekable();
    let mut processed = 0;
    for block in &run.blocks {
        while let Some(trouble) = refusals.next_if(|trouble| trouble.number < block.number) {
            writeln!(out, "refused {} {}", trouble.number, trouble.refusal.number())?;
        }
        for event in &block.events {
            processed += (event.outcome == Outcome::Processed) as u64;
            writeln!(out, "{} {} {} {}", word(event), block.number, event.statement, event.locator.offset())?;
        }
    }
    for trouble in refusals {
        writeln!(out, "refused {} {}", trouble.number, trouble.refusal.number())?;
    }
    let mut finals = 0;
    for stretch in run.engine.finals(Listed::Ordinary, run.reading) {
        let stretch = stretch.map_err(refused)?;
        let block = stretch.first.reference();
        for offset in stretch.first.offset()..stretch.end {
            finals += 1;
            let (round, author, digits) = (block.round, block.author, digits(&block));
            writeln!(out, "final {round} {author} {digits} {offset} {} {}", stretch.blocks, stretch.stake)?;
        }
    }
    writeln!(out, "end {} {} {processed} {} {finals}", run.blocks.len(), run.refused.len(), pending(run))?;
    Ok(())
}

/// How many offsets are pending.
fn pending(run: &Run) -> u64 {
    run.pending.iter().map(|item| item.end - item.first.offset()).sum()
}

pub fn json(run: &Run) -> Result<Json, Fault> {
    let mut events = Vec::new();
    for block in &run.blocks {
        for event in &block.events {
            events.push(object([
                ("event", word(event).into()),
                ("record", block.number.into()),
                ("statement", event.statement.into()),
                ("locator", event.locator.to_string().into()),
            ]));
        }
    }
    let mut finals = Vec::new();
    for stretch in run.engine.finals(Listed::Ordinary, run.reading) {
        let stretch = stretch.map_err(refused)?;
        finals.push(object([
            ("locator", stretch.first.to_string().into()),
            ("end", stretch.end.into()),
            ("blocks", stretch.blocks.into()),
            ("stake", stretch.stake.into()),
        ]));
    }
    Ok(object([
        ("accepted", run.blocks.len().into()),
        ("troubles", run.refused.iter().map(|trouble| trouble.json(run)).collect()),
        ("events", Json::List(events)),
        ("pending", pending(run).into()),
        ("final", Json::List(finals)),
    ]))
}
