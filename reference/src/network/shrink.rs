//! Makes a failing run small: fewer steps, then without the records that no step names.

use std::time::{Duration, Instant};

use super::world::{replay, Script, Step};
use super::Failure;
use crate::model::mistake::Mistake;

const LONGEST: Duration = Duration::from_secs(60);

/// The smallest form of a run that was found to fail too.
pub fn smallest(failure: Failure, mistake: Option<Mistake>) -> Failure {
    let Failure { mut script, mut text } = failure;
    let start = Instant::now();
    let mut size = script.steps.len() / 2;
    while size > 0 && start.elapsed() < LONGEST {
        let mut from = 0;
        while from < script.steps.len() && start.elapsed() < LONGEST {
            let mut less = script.clone();
            less.steps.drain(from..(from + size).min(script.steps.len()));
            match replay(&less, mistake) {
                Err(failure) => (script, text) = (less, failure),
                Ok(()) => from += size,
            }
        }
        size /= 2;
    }
    drop_unused(&mut script);
    Failure { script, text }
}

/// Leaves out records that no step names. Numbers of the others change with it, and what is told of them does not.
fn drop_unused(script: &mut Script) {
    let mut kept = Vec::new();
    for step in &mut script.steps {
        if let Step::Deliver { record, .. } = step {
            let place = kept.iter().position(|other| other == record).unwrap_or_else(|| {
                kept.push(*record);
                kept.len() - 1
            });
            *record = place;
        }
    }
    script.records = kept.into_iter().map(|record| script.records[record].clone()).collect();
}
