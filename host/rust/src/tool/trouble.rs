//! A record that was refused: why, and where in the file.

use lomkhvide::{Record, Reference, Refusal, Statement};

use super::input::{Broken, Framed};
use super::json::{Json, object};
use super::malformed::malformed;
use super::run::Run;

/// The words of the slice for events that a feed is lent, and those of an event.
const EVENT_WORDS: u64 = 8_192;
const WORDS_AN_EVENT: u64 = 3;

/// The most blocks that a store holds.
const MOST_BLOCKS: usize = 1_024;

pub struct Trouble<'a> {
    /// The record's number in the file, from 1, and where its length stands there.
    pub number: usize,
    pub at: usize,
    pub refusal: Refusal,
    /// The bytes of the record; none where the reading ended there, for that reason.
    found: Result<&'a [u8], String>,
}

impl<'a> Trouble<'a> {
    pub fn refused(number: usize, framed: Framed<'a>, refusal: Refusal) -> Trouble<'a> {
        Trouble { number, at: framed.at, refusal, found: Ok(framed.bytes) }
    }

    pub fn broken(number: usize, broken: &Broken) -> Trouble<'a> {
        Trouble { number, at: broken.at, refusal: Refusal::Malformed, found: Err(broken.why.clone()) }
    }

    /// The block that the record is of, as far as its bytes say so.
    pub fn reference(&self) -> Option<Reference> {
        self.found.as_ref().ok()?.first_chunk::<48>().map(Reference::from_bytes)
    }

    /// "an include is not stored (30)".
    pub fn reason(&self) -> String {
        match &self.found {
            Ok(_) => self.refusal.to_string(),
            Err(why) => format!("{why} ({})", self.refusal.number()),
        }
    }

    /// "record 20, byte 3854, round 2, owner 1: refused 30, an include is not stored: ..".
    pub fn line(&self, run: &Run) -> String {
        let block = self.reference().map_or(String::new(), |block| {
            format!(", round {}, {}, digest {}", block.round, run.members.owner(block.author), digits(&block))
        });
        let why = match &self.found {
            Ok(_) => self.refusal.sentence(),
            Err(why) => why,
        };
        let detail = self.detail(run).map_or(String::new(), |detail| format!(": {detail}"));
        format!("record {}, byte {}{block}: refused {}, {why}{detail}", self.number, self.at, self.refusal.number())
    }

    pub fn json(&self, run: &Run) -> Json {
        let block = self.reference();
        object([
            ("record", self.number.into()),
            ("byte", self.at.into()),
            ("round", block.map(|block| block.round).into()),
            ("author", block.map(|block| block.author).into()),
            ("digest", block.map(|block| digits(&block)).into()),
            ("number", self.refusal.number().into()),
            ("reason", self.reason().into()),
            ("detail", self.detail(run).into()),
            ("malformedByte", self.malformed_byte().into()),
        ])
    }

    /// The byte of the file at which the record is malformed.
    fn malformed_byte(&self) -> Option<usize> {
        match (&self.found, self.refusal) {
            (Ok(bytes), Refusal::Malformed) => malformed(bytes).map(|(byte, _)| self.at + 4 + byte),
            (Err(_), _) => Some(self.at),
            _ => None,
        }
    }

    /// What the record holds that is refused, beyond the engine's sentence.
    fn detail(&self, run: &Run) -> Option<String> {
        let bytes = *self.found.as_ref().ok()?;
        if self.refusal == Refusal::Malformed {
            let (byte, why) = malformed(bytes)?;
            return Some(format!("byte {} of the file, byte {byte} of the record: {why}", self.at + 4 + byte));
        }
        let record = Record::read(bytes).ok()?;
        let members = run.members.count();
        let include = |belongs: &dyn Fn(&Reference) -> bool| {
            (0..)
                .zip(record.includes())
                .find(|(_, block)| belongs(block))
                .map(|(i, block)| (i, block, format!("include {i}, {block:#}")))
        };
        match self.refusal {
            Refusal::UnknownAuthor => Some(format!("the owners have the numbers 0 to {}", members - 1)),
            Refusal::RoundZeroNotEmpty => {
                let many = |count: usize, of: &str| if count == 1 { format!("1 {of}") } else { format!("{count} {of}s") };
                Some(format!(
                    "{} and {}",
                    many(record.includes().len(), "include"),
                    many(record.statements().len(), "statement")
                ))
            }
            Refusal::StoredAlready => {
                run.place(&record.reference()).map(|place| format!("record {} is it", run.blocks[place].number))
            }
            Refusal::UnknownIncludeAuthor => include(&|block| block.author.0 >= members as u64)
                .map(|(_, _, name)| format!("{name}: the owners have the numbers 0 to {}", members - 1)),
            Refusal::IncludeRoundNotLower => include(&|block| block.round >= record.round())
                .map(|(_, block, name)| format!("{name}, is of round {}", block.round)),
            Refusal::ClockNotMet => Some(self.clock(run, &record)),
            Refusal::IncludeNotStored => {
                let (_, block, name) = include(&|block| self.stored_before(run, block).is_none())?;
                Some(format!("{name}: {}", self.whereabouts(run, &block)))
            }
            Refusal::StoreFull if run.blocks.len() == MOST_BLOCKS => {
                Some(format!("it holds {MOST_BLOCKS} blocks, the most there are"))
            }
            Refusal::StoreFull => {
                Some(format!("the record has {} bytes, and the store {}", bytes.len(), run.engine.store().len()))
            }
            Refusal::EventsTooShort => {
                let words = WORDS_AN_EVENT * record.statements().map(|statement| offsets(&statement)).sum::<u64>();
                Some(format!("its votes want {words} words, and {EVENT_WORDS} are lent"))
            }
            _ => statement(&record, self.refusal),
        }
    }

    /// The stored block of that reference, where its record came before this one.
    fn stored_before(&self, run: &Run, block: &Reference) -> Option<usize> {
        run.place(block).map(|place| run.blocks[place].number).filter(|number| *number < self.number)
    }

    /// Why a block was not there when this record came.
    fn whereabouts(&self, run: &Run, block: &Reference) -> String {
        if let Some(place) = run.place(block) {
            return format!("record {}, which holds it, comes later", run.blocks[place].number);
        }
        match run.refused_record(block) {
            Some(other) if other.number == self.number => "the record includes itself".into(),
            Some(other) => format!("record {}, which holds it, was refused", other.number),
            None => "no record of the file holds it".into(),
        }
    }

    /// What the authors of the includes of the round before hold.
    fn clock(&self, run: &Run, record: &Record) -> String {
        let before = record.includes().filter(|block| block.round.0.checked_add(1) == Some(record.round().0));
        let tally = run.members.tally(before.map(|block| block.author));
        format!("of round {}, {}", record.round().0.saturating_sub(1), run.members.sum(&tally))
    }
}

/// The first digits of a digest, as `listing` prints them.
pub fn digits(block: &Reference) -> String {
    block.digest[..4].iter().map(|byte| format!("{byte:02x}")).collect()
}

/// How many offsets a vote speaks of.
fn offsets(statement: &Statement) -> u64 {
    match statement {
        Statement::Accept(_) => 1,
        Statement::Range { first, end } => end.saturating_sub(first.offset()),
        _ => 0,
    }
}

/// The statement that is refused with 26 to 28.
fn statement(record: &Record, refusal: Refusal) -> Option<String> {
    let wrong = |statement: &Statement| match (refusal, statement) {
        (Refusal::RangeEndBelowStart, Statement::Range { first, end }) => *end < first.offset(),
        (Refusal::RangeEndTooLarge, Statement::Range { end, .. }) => *end >= 1 << 20,
        (Refusal::AcceptOffsetTooLarge, Statement::Accept(locator)) => locator.offset() == u64::MAX,
        _ => false,
    };
    let (i, found) = record.statements().enumerate().find(|(_, statement)| wrong(statement))?;
    Some(match found {
        Statement::Range { first, end } => {
            format!("statement {i}, the range {}..{end} of {:#}", first.offset(), first.reference())
        }
        _ => format!("statement {i}"),
    })
}
