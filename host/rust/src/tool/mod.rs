//! The program `lomkhvide`, for operators and students. Every answer comes from the engine's calls.

mod account;
mod ask;
mod asked;
mod changes;
mod check;
mod draw;
mod explain;
mod input;
mod json;
mod list;
mod locate;
mod malformed;
mod members;
mod records;
mod run;
mod stakes;
#[cfg(test)]
mod tests;
mod trouble;

use std::fmt;
use std::io::{self, Write};

pub use asked::{Asked, USAGE, asked};

use asked::Command;
use explain::Manner;
use input::{Input, NoCommittee};
use json::Json;
use run::Run;

/// Whether an answer was made from all records of the file.
#[derive(Clone, Copy, Debug, PartialEq, Eq)]
pub enum Whole {
    All,
    /// Some were refused.
    Part,
    /// The committee is refused, and that is the answer.
    Nothing,
}

/// Why the program ends early: a line that says what is wrong, and where.
#[derive(Debug)]
pub enum Fault {
    /// The question is wrong.
    Usage(String),
    /// The file cannot be read.
    Unreadable(String),
    /// The answer cannot be written.
    Output(io::Error),
}

impl Fault {
    pub fn exit_status(&self) -> u8 {
        match self {
            Fault::Usage(_) => 1,
            Fault::Unreadable(_) | Fault::Output(_) => 2,
        }
    }
}

impl Whole {
    pub fn exit_status(self) -> u8 {
        match self {
            Whole::All => 0,
            Whole::Part => 3,
            Whole::Nothing => 2,
        }
    }
}

impl From<io::Error> for Fault {
    fn from(error: io::Error) -> Fault {
        Fault::Output(error)
    }
}

/// Control characters of names and arguments are shown escaped, so that the reason stays one line.
impl fmt::Display for Fault {
    fn fmt(&self, f: &mut fmt::Formatter) -> fmt::Result {
        let text = match self {
            Fault::Usage(text) | Fault::Unreadable(text) => text.clone(),
            Fault::Output(error) => format!("the answer cannot be written: {error}"),
        };
        text.chars().try_for_each(|c| if c.is_control() { write!(f, "{}", c.escape_default()) } else { write!(f, "{c}") })
    }
}

fn unreadable<T>(text: impl Into<String>) -> Result<T, Fault> {
    Err(Fault::Unreadable(text.into()))
}

/// Does what is asked.
pub fn answer(asked: &Asked, out: &mut dyn Write) -> Result<Whole, Fault> {
    if asked.command == Command::Stakes {
        return stakes::stakes(asked, out);
    }
    let whole = answer_bytes(asked, &input::read_file(&asked.file)?, out)?;
    if asked.command == Command::Draw && whole == Whole::Part {
        // A page mostly goes to a file: who makes it should know before it is opened.
        let _ = writeln!(io::stderr(), "lomkhvide: {}: some records were refused, as the drawing says", asked.file);
    }
    Ok(whole)
}

/// The same of the file's bytes.
pub fn answer_bytes(asked: &Asked, bytes: &[u8], out: &mut dyn Write) -> Result<Whole, Fault> {
    let input = match Input::read(asked, bytes)? {
        Ok(input) => input,
        Err(refused) => return no_committee(asked, &refused, out),
    };
    let run = Run::new(&input, asked)?;
    if asked.json {
        json_answer(asked, &input, &run, out)?;
    } else {
        text_answer(asked, &input, &run, out)?;
    }
    Ok(if run.refused.is_empty() { Whole::All } else { Whole::Part })
}

/// Nothing can be answered; `listing` has lines for it.
fn no_committee(asked: &Asked, refused: &NoCommittee, out: &mut dyn Write) -> Result<Whole, Fault> {
    if asked.listing {
        list::no_committee(refused, out)?;
        return Ok(Whole::Nothing);
    }
    unreadable(format!("{}, byte 0: the committee is refused: {} ({})", asked.file, refused.reason, refused.number))
}

fn manner(asked: &Asked, run: &Run) -> Result<Manner, Fault> {
    let everybody = Manner { all: asked.all, ..Manner::EVERYBODY };
    let Some(reach) = &asked.reach else { return Ok(everybody) };
    let (reachable, nobody) = run.members.reach(reach)?;
    Ok(Manner { reachable, nobody, reach_given: true, ..everybody })
}

fn text_answer(asked: &Asked, input: &Input, run: &Run, out: &mut dyn Write) -> Result<(), Fault> {
    let manner = manner(asked, run)?;
    let locator = if asked.rest.is_empty() { None } else { Some(locate::locate(run, &asked.rest)?) };
    if !asked.listing && asked.command != Command::Draw {
        let line = if asked.command == Command::Check { run.refused_first() } else { run.refused_line() };
        if let Some(line) = line {
            writeln!(out, "{line}")?;
        }
    }
    match (asked.command, locator) {
        (Command::List, _) => {
            if !asked.listing {
                writeln!(out, "{}", run.members.line())?;
            }
            list::list(run, out)
        }
        (Command::Check, _) => check::check(run, out),
        (Command::Records, _) => records::records(run, input, asked.all, out),
        (Command::Explain, Some(locator)) => explain::explain(run, &locator, &manner, out),
        (Command::Explain, None) => changes::every_change(run, &manner, out),
        (Command::Draw, locator) => draw::draw(run, input, asked, locator, out),
        (Command::Stakes, _) => Ok(()),
    }
}

/// The same facts for a script: what was refused, the committee, and the answer.
fn json_answer(asked: &Asked, input: &Input, run: &Run, out: &mut dyn Write) -> Result<(), Fault> {
    let manner = manner(asked, run)?;
    let answer = match (asked.command, &asked.rest[..]) {
        (Command::List, _) => list::json(run)?,
        (Command::Check, _) => check::json(run),
        (Command::Records, _) => records::json(run, input),
        (Command::Explain, []) => changes::json(run, &manner)?,
        (Command::Explain, given) => explain::json(run, &locate::locate(run, given)?, &manner)?,
        (Command::Draw, []) => draw::json(run, input, asked, None)?,
        (Command::Draw, given) => draw::json(run, input, asked, Some(locate::locate(run, given)?))?,
        (Command::Stakes, _) => Json::Null,
    };
    let first = run.refused.first().map(|trouble| trouble.json(run));
    let refused = json::object([("count", run.refused.len().into()), ("of", run.count.into()), ("first", first.into())]);
    let whole = json::object([
        ("refused", refused),
        ("committee", run.members.json()),
        ("withdrawing", asked.withdrawing.into()),
        ("answer", answer),
    ]);
    writeln!(out, "{whole}")?;
    Ok(())
}
