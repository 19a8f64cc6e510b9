//! An owner may withdraw: graphs rich in rejects, each question of the second reading on the engine and on the model.

use std::collections::BTreeSet;

use crate::compare::{same, same_bytes, set, Outcome, Sides};
use crate::engine;
use crate::generate;
use crate::model::finality::{Graph, Listed, Reading};
use crate::model::lent::{write_finality, POSITION_BYTES};
use crate::model::record::Locator;
use crate::questions::{asked_on, in_bulk};
use crate::rng::Rng;
use crate::tally::Tally;

/// What the lists of a run held.
#[derive(Default)]
pub struct Withdrawn {
    pub questions: u64,
    /// Locators that are final in both readings, and in the old one alone.
    pub both: u64,
    pub old_alone: u64,
    /// Locators of the wide lists of the second reading, and of the ordinary ones.
    pub listed: u64,
    pub shares: u64,
}

/// List n: questions after some of its records, and after all of them.
pub fn compare(seed: u64, n: u64, withdrawn: &mut Withdrawn) -> Outcome {
    let mut rng = Rng::new(seed.wrapping_mul(0x9e3779b97f4a7c15) ^ n);
    let list = generate::rejecting(&mut rng);
    let Some(mut sides) = set(&list)? else { return Ok(()) };
    let asked = rng.below(list.records.len() as u64 + 1) as usize;
    for (i, record) in list.records.iter().enumerate() {
        if i == asked {
            ask(&sides, &mut rng, withdrawn).map_err(|text| format!("after {i} records: {text}"))?;
        }
        sides.feed(record, &mut Tally::default()).map_err(|text| format!("record {}: {text}", i + 1))?;
    }
    ask(&sides, &mut rng, withdrawn).map_err(|text| format!("at the end: {text}"))
}

fn ask(sides: &Sides, rng: &mut Rng, withdrawn: &mut Withdrawn) -> Outcome {
    let graph = Graph::new(&sides.committee, &sides.state.stores);
    for locator in locators(&graph) {
        withdrawn.questions += 1;
        let old = graph.finality(&locator).is_final;
        let new = finality(sides, &graph, &locator)?;
        withdrawn.both += (old && new) as u64;
        withdrawn.old_alone += (old && !new) as u64;
        same("final in the second reading, so in the old one", "model", new && !old, false)?;
    }
    if graph.rejected().is_empty() {
        same("no rejects", "model", graph.final_list_in(Reading::Withdrawing), graph.final_list())?;
    }
    let wide = graph.listed_in(Reading::Withdrawing, Listed::Wide);
    asked_on(sides, &(engine::next_wide_withdrawing, "next_wide_withdrawing"), &wide, rng)?;
    in_bulk(sides, &(engine::wide_stretches_withdrawing, "wide_stretches_withdrawing"), &wide, rng)?;
    let shares = graph.listed_in(Reading::Withdrawing, Listed::Ordinary);
    withdrawn.listed += wide.len() as u64;
    withdrawn.shares += shares.len() as u64;
    asked_on(sides, &(engine::next_final_withdrawing, "next_final_withdrawing"), &shares, rng)?;
    in_bulk(sides, &(engine::final_stretches_withdrawing, "final_stretches_withdrawing"), &shares, rng)
}

/// Those that are voted for or rejected, and their neighbours.
fn locators(graph: &Graph) -> BTreeSet<Locator> {
    let mut locators = graph.voted();
    for locator in graph.rejected() {
        let beside = [locator.offset.wrapping_sub(1), locator.offset, locator.offset.wrapping_add(1)];
        locators.extend(beside.map(|offset| Locator { offset, ..locator }));
    }
    locators
}

fn finality(sides: &Sides, graph: &Graph, locator: &Locator) -> Result<bool, String> {
    let lent = &sides.engine;
    let (mut got, mut right) = (vec![0x3c; POSITION_BYTES], vec![0x3c; POSITION_BYTES]);
    let told = engine::finality_withdrawing(&lent.stakes, &lent.store, &mut got, &locator.bytes());
    let finality = graph.finality_in(Reading::Withdrawing, locator);
    let answer = write_finality(&sides.state.stores, &finality, &mut right);
    same(format_args!("finality_withdrawing of {locator:?}"), "engine", told, Ok(answer))?;
    same_bytes(format_args!("positions of {locator:?} in the second reading"), &got, &right)?;
    Ok(finality.is_final)
}
