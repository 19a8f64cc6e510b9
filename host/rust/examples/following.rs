//! Writes a sole owner's program and a gain table after it, as an input of `listing` and `lomkhvide`: exercise 8 of the course page.
//!
//!     cargo run --example following 2 > following_2.bin
//!     lomkhvide explain following_2.bin
//!
//! Record 2 shares the program (offset 0) with an accept of it beside (offset 1), record 3 the table; the number says which payload the
//! table has, by the rows of the exercise.

use std::env;
use std::error::Error;
use std::io::{self, Write};

use lomkhvide::{AuthorityIndex, Locator, Record, RecordBuilder, Reference, RoundNumber};

/// Record k has k in its digest, and is of round k - 1.
fn reference(k: u8) -> Reference {
    let mut digest = [0; 32];
    digest[3] = k;
    Reference::new(RoundNumber(k as u64 - 1), AuthorityIndex(0), digest)
}

fn builder(k: u8) -> RecordBuilder {
    let builder = Record::builder(reference(k).round, AuthorityIndex(0), reference(k).digest);
    if k == 1 { builder } else { builder.include(reference(k - 1)) }
}

fn main() -> Result<(), Box<dyn Error>> {
    let (program, nobody) = (reference(2).at(0), Locator::new(RoundNumber(1), AuthorityIndex(0), [9; 32], 0));
    let needing = |first: u8, change: Locator| [&[first], &change.to_bytes()[..]].concat();
    let payload = match env::args().nth(1).as_deref() {
        Some("1") => b"gain".to_vec(),
        Some("2") => needing(1, program),
        Some("3") => [needing(1, program), b"gain".to_vec()].concat(),
        Some("4") => needing(1, program)[..56].to_vec(),
        Some("5") => needing(2, program),
        Some("6") => needing(1, reference(2).at(1)),
        Some("7") => needing(1, reference(3).at(0)),
        Some("8") => needing(1, nobody),
        _ => return Err("which row of the exercise, 1 to 8?".into()),
    };
    let records = [builder(1), builder(2).share(b"program").accept(program), builder(3).share(&payload)];
    let mut input = [&[1], &1u64.to_le_bytes()[..]].concat();
    for record in records {
        let record = record.finish()?;
        input.extend((record.as_bytes().len() as u32).to_le_bytes());
        input.extend(record.as_bytes());
    }
    io::stdout().write_all(&input)?;
    Ok(())
}
