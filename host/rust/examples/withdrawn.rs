//! Writes the course run with a reject of its share in one record, as an input of `listing` and `lomkhvide`.
//!
//!     cargo run --example withdrawn 12 > withdrawn.bin
//!     lomkhvide draw --withdrawing withdrawn.bin > page.html
//!
//! Four owners of stake 1. Record 5 shares; records 9 and 10 accept it; 11 to 13 stand above all of them; record 14, of owner 3 and round 2,
//! comes last, and nobody includes it.

use std::env;
use std::io::{self, Write};

use lomkhvide::{AuthorityIndex, Record, Reference, RoundNumber};

/// Record k has k in its digest.
fn reference(k: u8, author: u64, round: u64) -> Reference {
    let mut digest = [0; 32];
    digest[3] = k;
    Reference::new(RoundNumber(round), AuthorityIndex(author), digest)
}

fn main() -> Result<(), Box<dyn std::error::Error>> {
    let rejecting: Option<u8> = env::args().nth(1).map(|number| number.parse()).transpose()?;
    let share = reference(5, 0, 1).at(0);
    let rounds = [(0, 1, 4), (1, 5, 3), (2, 8, 3), (3, 11, 3), (2, 14, 1)];
    let mut input = vec![4];
    (0..4).for_each(|_| input.extend(1u64.to_le_bytes()));
    for (round, first, blocks) in rounds {
        for i in 0..blocks {
            let k = first + i;
            let author = if k == 14 { 3 } else { i as u64 };
            let block = reference(k, author, round);
            let mut record = Record::builder(block.round, block.author, block.digest);
            if round > 0 {
                let before = [1, 5, 8][round as usize - 1];
                for author in 0..3 {
                    record = record.include(reference(before + author as u8, author, round - 1));
                }
            }
            record = match k {
                5 => record.share(b"gain"),
                9 | 10 => record.accept(share),
                _ => record,
            };
            if rejecting == Some(k) {
                record = record.reject(share, None);
            }
            let record = record.finish()?;
            input.extend((record.as_bytes().len() as u32).to_le_bytes());
            input.extend(record.as_bytes());
        }
    }
    io::stdout().write_all(&input)?;
    Ok(())
}
