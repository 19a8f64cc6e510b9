//! `check`: what the engine refuses, in words.

use std::io::Write;

use super::Fault;
use super::json::{Json, object};
use super::run::Run;

pub fn check(run: &Run, out: &mut dyn Write) -> Result<(), Fault> {
    for trouble in &run.refused {
        writeln!(out, "{}", trouble.line(run))?;
    }
    writeln!(out, "{} accepted, {} refused", run.blocks.len(), run.refused.len())?;
    writeln!(out, "{}", run.members.line())?;
    Ok(())
}

pub fn json(run: &Run) -> Json {
    object([("accepted", run.blocks.len().into()), ("troubles", run.refused.iter().map(|trouble| trouble.json(run)).collect())])
}
