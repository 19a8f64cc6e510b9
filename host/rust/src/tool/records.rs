//! `records`: each record in words.

use std::fmt::Write as _;
use std::io::Write;

use lomkhvide::{Record, Reference, Statement};

use super::Fault;
use super::input::Input;
use super::json::{Json, object};
use super::run::Run;
use super::trouble::Trouble;

/// The most includes and statements of a record that are shown, where not all are asked for.
const MOST: usize = 12;

/// A block by the number of its record, or where no record before holds it by its reference.
fn named(run: &Run, block: &Reference) -> String {
    match run.place(block) {
        Some(place) => format!("record {}", run.blocks[place].number),
        None => format!("{block:#}, which is not stored"),
    }
}

/// A statement in words.
pub fn said(run: &Run, statement: &Statement) -> String {
    match statement {
        Statement::Share(payload) if payload.len() == 1 => "shares 1 byte".into(),
        Statement::Share(payload) => format!("shares {} bytes", payload.len()),
        Statement::Accept(locator) => format!("accepts offset {} of {}", locator.offset(), named(run, &locator.reference())),
        Statement::Reject(locator, other) => {
            let mut text = format!("rejects offset {} of {}", locator.offset(), named(run, &locator.reference()));
            if let Some(other) = other {
                let _ = write!(text, ", naming offset {} of {}", other.offset(), named(run, &other.reference()));
            }
            text
        }
        Statement::Range { first, end } => {
            let block = named(run, &first.reference());
            match end.checked_sub(first.offset()) {
                Some(0) => format!("accepts nothing: the empty range {end}..{end} of {block}"),
                Some(1) => format!("accepts offset {} of {block}, by a range", first.offset()),
                Some(_) => format!("accepts offsets {} to {} of {block}", first.offset(), end - 1),
                None => format!("has a range {}..{end} of {block}, which ends below its start", first.offset()),
            }
        }
    }
}

/// "includes records 5, 6, 7".
pub fn includes(run: &Run, record: &Record, most: usize) -> Option<String> {
    let all: Vec<Reference> = record.includes().collect();
    if all.is_empty() {
        return None;
    }
    let (stored, missing): (Vec<Reference>, Vec<Reference>) = all.iter().partition(|block| run.place(block).is_some());
    let numbers: Vec<String> = stored.iter().take(most).map(|block| named(run, block)["record ".len()..].to_string()).collect();
    let mut text = match numbers.len() {
        0 => "includes no stored block".to_string(),
        1 => format!("includes record {}", numbers[0]),
        _ => format!("includes records {}", numbers.join(", ")),
    };
    if stored.len() > most {
        let _ = write!(text, " and {} more", stored.len() - most);
    }
    for block in missing.iter().take(most) {
        let _ = write!(text, "; {block:#}, which is not stored");
    }
    if missing.len() > most {
        let _ = write!(text, "; and {} more that are not stored", missing.len() - most);
    }
    Some(text)
}

/// The record's number in the file, where it stands there, its bytes and why it was refused.
struct Entry<'a, 'b> {
    number: usize,
    at: usize,
    bytes: &'a [u8],
    refused: Option<&'b Trouble<'a>>,
}

pub fn records(run: &Run, input: &Input, all: bool, out: &mut dyn Write) -> Result<(), Fault> {
    let stored =
        if run.blocks.len() == 1 { "1 record is stored".into() } else { format!("{} records are stored", run.blocks.len()) };
    writeln!(out, "{stored}, {} refused.\n{}", run.refused.len(), run.members.line())?;
    for entry in entries(run, input) {
        write!(out, "\n{}", told(run, &entry, if all { usize::MAX } else { MOST }))?;
    }
    if let Some(broken) = &input.broken {
        writeln!(out, "\nrecord {}, byte {}: refused 20, {}", input.count(), broken.at, broken.why)?;
    }
    Ok(())
}

fn entries<'a, 'b>(run: &'b Run<'a>, input: &'b Input<'a>) -> impl Iterator<Item = Entry<'a, 'b>> {
    let mut refused = run.refused.iter().peekable();
    (1..).zip(&input.records).map(move |(number, framed)| {
        let refused = refused.next_if(|trouble| trouble.number == number);
        Entry { number, at: framed.at, bytes: framed.bytes, refused }
    })
}

fn told(run: &Run, entry: &Entry, most: usize) -> String {
    if let Some(trouble) = entry.refused {
        let mut text = format!("{}\n", trouble.line(run));
        if let Ok(record) = Record::read(entry.bytes) {
            text += &body(run, &record, most);
        }
        return text;
    }
    let Ok(record) = Record::read(entry.bytes) else { return String::new() };
    let block = record.reference();
    let mark = if record.is_marked() { ", with an epoch mark" } else { "" };
    let time = record.time().map_or(String::new(), |time| format!(", made at {time} ns"));
    let owner = run.members.owner(block.author);
    format!(
        "record {}, byte {}: round {}, {owner}, digest {}{mark}{time}\n{}",
        entry.number,
        entry.at,
        block.round,
        super::trouble::digits(&block),
        body(run, &record, most)
    )
}

fn body(run: &Run, record: &Record, most: usize) -> String {
    let mut text = String::new();
    if let Some(includes) = includes(run, record, most) {
        let _ = writeln!(text, "  {includes}");
    }
    for (i, statement) in record.statements().enumerate().take(most) {
        let _ = writeln!(text, "  statement {i} {}", said(run, &statement));
    }
    if record.statements().len() > most {
        let _ = writeln!(text, "  and {} more statements; --all shows them", record.statements().len() - most);
    }
    text
}

pub fn json(run: &Run, input: &Input) -> Json {
    let number = |block: &Reference| run.place(block).map(|place| run.blocks[place].number);
    let one = |entry: Entry| {
        let mut facts = vec![("record", entry.number.into()), ("byte", entry.at.into())];
        facts.push(("refused", entry.refused.map(|trouble| trouble.json(run)).into()));
        if let Ok(record) = Record::read(entry.bytes) {
            let block = record.reference();
            let include = |block: Reference| object([("record", number(&block).into()), ("block", block.to_string().into())]);
            facts.extend([
                ("author", block.author.into()),
                ("round", block.round.into()),
                ("block", block.to_string().into()),
                ("marked", record.is_marked().into()),
                ("time", record.time().into()),
                ("includes", record.includes().map(include).collect()),
                ("statements", record.statements().map(|statement| facts_of(&statement)).collect()),
            ]);
        }
        Json::Object(facts)
    };
    entries(run, input).map(one).collect()
}

/// A statement's facts.
fn facts_of(statement: &Statement) -> Json {
    match statement {
        Statement::Share(payload) => object([("kind", "share".into()), ("bytes", payload.len().into())]),
        Statement::Accept(locator) => object([("kind", "accept".into()), ("locator", locator.to_string().into())]),
        Statement::Reject(locator, other) => object([
            ("kind", "reject".into()),
            ("locator", locator.to_string().into()),
            ("other", other.map(|other| other.to_string()).into()),
        ]),
        Statement::Range { first, end } => {
            object([("kind", "range".into()), ("locator", first.to_string().into()), ("end", (*end).into())])
        }
    }
}
