//! Files of stakes on the engine and the model: the answer, and every byte of the slice that is lent for the stakes.

use std::collections::BTreeMap;

use crate::compare::{same, same_bytes, Outcome};
use crate::engine::{self, Answer};
use crate::list::hex;
use crate::model::lent;
use crate::rng::Rng;

/// One file, with a slice of 1,024 bytes, or now and then of another length.
pub fn compare(file: &[u8], met: &mut BTreeMap<Answer, u64>) -> Outcome {
    let mut rng = Rng::of(file);
    let length = if rng.once_in(8) { rng.below(1100) as usize } else { lent::STAKES_BYTES };
    let mut right: Vec<u8> = (0..length).map(|_| rng.word() as u8).collect();
    let mut stakes = right.clone();
    let answer = lent::load_stakes(file, &mut right);
    let got = engine::load_stakes(file, &mut stakes);
    *met.entry(answer).or_default() += 1;
    same("answer", "engine", got, answer).and_then(|_| same_bytes("stakes", &stakes, &right)).map_err(|text| match file.len() {
        0..=400 => format!("{text}\n  file: {}", hex(file)),
        length => format!("{text}\n  a file of {length} bytes"),
    })
}

/// How often each refusal was met, and how many files were loaded.
pub fn describe(met: &BTreeMap<Answer, u64>) -> String {
    let loaded: u64 = met.iter().filter(|(answer, _)| answer.is_ok()).map(|(_, count)| count).sum();
    let refused = met.iter().filter_map(|(answer, count)| answer.err().map(|number| format!("{number}: {count}")));
    format!("loaded {loaded}; refused {{{}}}", refused.collect::<Vec<_>>().join(", "))
}
