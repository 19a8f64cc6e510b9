//! Records of our own: drafts written by the engine and by the model, whole and damaged, into slices of many lengths; and the written
//! records fed to every side.

use crate::compare::{same, same_bytes, set, Outcome};
use crate::damage::damaged;
use crate::engine;
use crate::generate;
use crate::model::record::{given_bytes, given_of, includes_bytes, Block, Locator, Reference, Statement, MAX_STATEMENTS};
use crate::model::writing::{joined, record, write_record, Given};
use crate::rng::Rng;
use crate::rust::vote_ranges;
use crate::tally::Tally;

/// What the drafts of a run held.
#[derive(Default)]
pub struct Written {
    pub records: u64,
    pub ranges: u64,
    pub malformed: u64,
    pub short: u64,
    pub fed: u64,
}

/// Run n: a list whose records are taken apart, written anew and fed, and drafts that no record holds.
pub fn run(seed: u64, n: u64, written: &mut Written) -> Outcome {
    let mut rng = Rng::new(seed.wrapping_mul(0x9e3779b97f4a7c15) ^ n);
    fed(seed, n, &mut rng, written)?;
    (0..8).try_for_each(|_| {
        let given = draft(&mut rng);
        beside(&given, &mut rng, written)?;
        beside(&broken(&given, &mut rng), &mut rng, written)
    })?;
    builder(&mut rng)
}

/// The records of a list written by the engine, and then fed to every side.
fn fed(seed: u64, n: u64, rng: &mut Rng, written: &mut Written) -> Outcome {
    let mut list = generate::timed_list(seed, n);
    list.records.truncate(60);
    list.store = list.store.max(16);
    let Some(mut sides) = set(&list)? else { return Ok(()) };
    for bytes in &list.records {
        let Some(block) = Block::decode(bytes) else { continue };
        let given = apart(&block, rng);
        let Ok(right) = record(&given) else { continue };
        let mut out = vec![0; right.len()];
        same("write_record", "engine", engine::write_record(&given, &mut out), Ok(right.len() as u64))?;
        same_bytes("the record", &out, &right)?;
        if joined(&block.statements) == block.statements && given.statements == given_bytes(&block.statements) {
            same_bytes("a record without neighbouring accepts, written anew", &out, bytes)?;
        }
        sides.feed(&out, &mut Tally::default()).map_err(|text| format!("a written record: {text}"))?;
        written.fed += 1;
    }
    Ok(())
}

/// A block as it is given; now and then a range of a few offsets as accepts.
fn apart(block: &Block, rng: &mut Rng) -> Given {
    let spread = rng.once_in(2);
    let statements = block.statements.iter().flat_map(|statement| match statement {
        Statement::Range(reference, start, end) if spread && start < end && end - start < 20 => {
            (*start..*end).map(|offset| Statement::Accept(Locator::new(*reference, offset))).collect()
        }
        _ => vec![statement.clone()],
    });
    Given {
        author: block.reference.author,
        round: block.reference.round,
        digest: block.reference.digest.to_vec(),
        mark: block.marked as u64,
        time: block.time,
        includes: includes_bytes(&block.includes),
        statements: given_bytes(&statements.collect::<Vec<_>>()),
    }
}

fn reference(rng: &mut Rng) -> Reference {
    let mut digest = [0; 32];
    digest[31] = rng.below(2) as u8;
    Reference { author: rng.below(2), round: rng.below(2), digest }
}

/// Offsets near the limit and near the ends of a word.
fn offset(rng: &mut Rng) -> u64 {
    match rng.below(6) {
        0 => rng.within(1_048_570, 1_048_580),
        1 => u64::MAX - rng.below(3),
        _ => rng.below(6),
    }
}

/// Accepts in runs of many lengths, with other statements between them.
fn draft(rng: &mut Rng) -> Given {
    let count = match rng.below(40) {
        0 => rng.within(1020, 1030),
        1 => rng.within(1, 200),
        _ => rng.below(12),
    };
    let mut statements = Vec::new();
    let mut at = Locator::new(reference(rng), offset(rng));
    for _ in 0..count {
        match rng.below(12) {
            0 => statements.push(Statement::Share(vec![7; rng.below(9) as usize])),
            1 => statements.push(Statement::Reject(at, rng.once_in(2).then_some(at))),
            2 => statements.push(Statement::Range(at.block, at.offset, at.offset.wrapping_add(rng.below(4)).wrapping_sub(1))),
            3 => at = Locator::new(reference(rng), offset(rng)),
            4 => at.block = reference(rng),
            5 => at.offset = offset(rng),
            _ => {}
        }
        statements.push(Statement::Accept(at));
        at.offset = at.offset.wrapping_add(1);
    }
    if rng.once_in(30) {
        // As many statements as a record holds after joining, one fewer or one more.
        statements.extend((0..MAX_STATEMENTS + rng.below(3) as usize - 1).map(|_| Statement::Share(vec![])));
    }
    if rng.once_in(30) {
        statements.push(Statement::Share(vec![1; rng.within(65_534, 65_537) as usize]));
    }
    let includes = if rng.once_in(20) { rng.within(255, 257) } else { rng.below(4) };
    Given {
        author: rng.word() >> rng.below(64),
        round: rng.word() >> rng.below(64),
        digest: (0..32).map(|_| rng.word() as u8).collect(),
        mark: rng.below(2),
        time: rng.once_in(2).then(|| rng.clone().word() >> rng.below(64)),
        includes: includes_bytes(&(0..includes).map(|_| reference(rng)).collect::<Vec<_>>()),
        statements: given_bytes(&statements),
    }
}

/// One thing changed.
fn broken(given: &Given, rng: &mut Rng) -> Given {
    let mut given = given.clone();
    match rng.below(5) {
        0 => given.digest = damaged(&given.digest, rng),
        1 => given.mark = *rng.pick(&[2, 255, 256, 257, 1 << 32, u64::MAX]),
        2 => given.includes = damaged(&given.includes, rng),
        _ => given.statements = damaged(&given.statements, rng),
    }
    given
}

/// The engine beside the model: the answer and every byte, in slices too short, just long enough and longer.
fn beside(given: &Given, rng: &mut Rng, written: &mut Written) -> Outcome {
    let need = record(given).map_or(300, |record| record.len());
    for length in [0, rng.below(need as u64 + 1) as usize, need.saturating_sub(1), need, need + rng.within(1, 40) as usize] {
        let (mut right, mut got) = (vec![0xa5; length], vec![0xa5; length]);
        let answer = write_record(given, &mut right);
        let told = engine::write_record(given, &mut got);
        same(format_args!("write_record of {given:?} into {length} bytes"), "engine", told, answer)?;
        same_bytes("the slice", &got, &right)?;
        match answer {
            Ok(n) => {
                written.records += 1;
                let block = Block::decode(&got[..n as usize]).ok_or("a written record is malformed")?;
                let ranges = |statements: &[Statement]| statements.iter().filter(|s| matches!(s, Statement::Range(..))).count();
                let before = ranges(&given_of(&given.statements).ok_or("the statements were read")?);
                written.ranges += (ranges(&block.statements) - before) as u64;
            }
            Err(50) => written.short += 1,
            Err(_) => written.malformed += 1,
        }
    }
    Ok(())
}

/// Accepts of one block below the limit: the ranges are those of the Rust's `VoteRangeBuilder`.
fn builder(rng: &mut Rng) -> Outcome {
    let block = reference(rng);
    let mut offset = rng.below(1000);
    let offsets: Vec<u64> = (0..rng.within(1, 40))
        .map(|_| {
            offset = if rng.once_in(4) { rng.below(1000) } else { offset + 1 };
            offset
        })
        .collect();
    let Some(ranges) = vote_ranges(&offsets) else { return Ok(()) };
    let given: Vec<Statement> = offsets.iter().map(|offset| Statement::Accept(Locator::new(block, *offset))).collect();
    let given = Given {
        author: 0,
        round: 1,
        digest: vec![0; 32],
        mark: 0,
        time: None,
        includes: vec![],
        statements: given_bytes(&given),
    };
    let mut out = vec![0; 56 + given.statements.len()];
    let length = engine::write_record(&given, &mut out).map_err(|number| format!("refused {number}"))?;
    let read = Block::decode(&out[..length as usize]).ok_or("a written record is malformed")?;
    let got: Vec<(u64, u64)> = read
        .statements
        .iter()
        .map(|statement| match statement {
            Statement::Accept(locator) => (locator.offset, locator.offset + 1),
            Statement::Range(_, start, end) => (*start, *end),
            _ => (0, 0),
        })
        .collect();
    same(format_args!("accepts of one block at {offsets:?}"), "engine", got, ranges)
}
