//! 02, "One. Blocks of our own": a record written from author, round, digest, mark, includes and statements; with a time, as "Nine" has it.

use super::lent::Answer;
use super::record::{given_of, includes_of, Block, Locator, Reference, Statement, MAX_INCLUDES, MAX_STATEMENTS};

/// A range's end stays below it.
const LIMIT: u64 = 1_048_576;

/// What is lent to the writer.
#[derive(Clone, Debug)]
pub struct Given {
    pub author: u64,
    pub round: u64,
    pub digest: Vec<u8>,
    pub mark: u64,
    pub time: Option<u64>,
    pub includes: Vec<u8>,
    pub statements: Vec<u8>,
}

/// "Accepts that follow each other for one block, each offset one above the last, become a range, .. as far as its end stays below
/// 1,048,576; a lone accept stays a vote, a given range a range."
pub fn joined(given: &[Statement]) -> Vec<Statement> {
    let mut written = Vec::new();
    let mut i = 0;
    while i < given.len() {
        let Statement::Accept(first) = &given[i] else {
            written.push(given[i].clone());
            i += 1;
            continue;
        };
        let length = run(first, &given[i..]);
        written.push(match length {
            1 => given[i].clone(),
            _ => Statement::Range(first.block, first.offset, first.offset + length as u64),
        });
        i += length;
    }
    written
}

/// How many of the statements are the run of accepts that begins with the first.
fn run(first: &Locator, statements: &[Statement]) -> usize {
    let goes_on = |i: usize| match &statements[i] {
        Statement::Accept(next) => {
            let offset = first.offset as u128 + i as u128;
            next.block == first.block && next.offset as u128 == offset && offset + 1 < LIMIT as u128
        }
        _ => false,
    };
    (1..statements.len()).find(|i| !goes_on(*i)).unwrap_or(statements.len())
}

/// The record, or 51.
pub fn record(given: &Given) -> Result<Vec<u8>, u64> {
    let includes = includes_of(&given.includes).ok_or(51u64)?;
    let statements = given_of(&given.statements).ok_or(51u64)?;
    let digest: [u8; 32] = given.digest.as_slice().try_into().map_err(|_| 51u64)?;
    if statements.iter().any(|statement| matches!(statement, Statement::Share(payload) if payload.len() > 65_535)) {
        return Err(51);
    }
    let statements = joined(&statements);
    if given.mark > 1 || includes.len() > MAX_INCLUDES || statements.len() > MAX_STATEMENTS {
        return Err(51);
    }
    let reference = Reference { author: given.author, round: given.round, digest };
    Ok(Block { reference, marked: given.mark == 1, includes, statements, time: given.time }.encode())
}

/// Writes it: 51, then 50 for a slice that is too short. Bytes past the record stay.
pub fn write_record(given: &Given, out: &mut [u8]) -> Answer {
    let record = record(given)?;
    out.get_mut(..record.len()).ok_or(50u64)?.copy_from_slice(&record);
    Ok(record.len() as u64)
}
