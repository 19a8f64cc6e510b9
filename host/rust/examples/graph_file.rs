//! Writes a graph as an input of `listing` and `lomkhvide`: owners of stake 1, each with a block in each round that includes the whole round before,
//! shares a change and accepts the others' of the round before.
//!
//!     cargo run --example graph_file 10 100 > graph.bin

use std::env;
use std::error::Error;
use std::io::{self, Write};

use lomkhvide::{AuthorityIndex, Record, Reference, RoundNumber};

fn main() -> Result<(), Box<dyn Error>> {
    let numbers = env::args().skip(1).map(|word| word.parse()).collect::<Result<Vec<u64>, _>>()?;
    let [owners, rounds] = numbers[..] else { return Err("how many owners, and how many rounds?".into()) };
    let mut input = vec![u8::try_from(owners)?];
    (0..owners).for_each(|_| input.extend(1u64.to_le_bytes()));
    let (mut before, mut number): (Vec<Reference>, u32) = (Vec::new(), 0);
    for round in 0..rounds {
        let mut blocks = Vec::new();
        for author in 0..owners {
            number += 1;
            let mut digest = [0; 32];
            digest[..4].copy_from_slice(&number.to_be_bytes());
            let mut record = Record::builder(RoundNumber(round), AuthorityIndex(author), digest);
            for block in &before {
                record = record.include(*block);
            }
            if round > 0 {
                record = record.share(format!("gain table {number}").as_bytes());
            }
            for block in before.iter().filter(|block| round > 1 && block.author.0 != author) {
                record = record.accept(block.at(0));
            }
            let record = record.finish()?;
            input.extend((record.as_bytes().len() as u32).to_le_bytes());
            input.extend(record.as_bytes());
            blocks.push(record.reference());
        }
        before = blocks;
    }
    io::stdout().write_all(&input)?;
    Ok(())
}
