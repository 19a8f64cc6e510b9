//! What the lists of a run held: a reader sees that each refusal and each kind of event was met.

use std::collections::BTreeMap;

use crate::model::feed::{Event, Kind};

#[derive(Default, Clone)]
pub struct Tally {
    pub lists: u64,
    pub accepted: u64,
    pub refused: BTreeMap<u64, u64>,
    pub events: BTreeMap<Kind, u64>,
    /// Locators of the wide lists, and of the ordinary ones.
    pub finals: u64,
    pub shares: u64,
    pub not_finals: u64,
    pub pending: u64,
    pub questions: u64,
    /// Answers about whom to ring: with somebody to ring, with nobody, and 60.
    pub rung: [u64; 3],
    /// Times asked for of stored blocks without one, and with one.
    pub times: [u64; 2],
    pub damaged: BTreeMap<u64, u64>,
}

impl Tally {
    pub fn feed(&mut self, told: &Result<Vec<Event>, u64>) {
        match told {
            Err(number) => *self.refused.entry(*number).or_default() += 1,
            Ok(events) => {
                self.accepted += 1;
                events.iter().for_each(|event| *self.events.entry(event.kind).or_default() += 1);
            }
        }
    }

    pub fn rings(&mut self, told: &Result<u64, u64>) {
        match told {
            Ok(0) => self.rung[1] += 1,
            Ok(_) => self.rung[0] += 1,
            Err(60) => self.rung[2] += 1,
            Err(_) => {}
        }
    }

    pub fn describe(&self) -> String {
        let each = |counts: &BTreeMap<u64, u64>| {
            counts.iter().map(|(number, count)| format!("{number}: {count}")).collect::<Vec<_>>().join(", ")
        };
        let kind = |kind: Kind| self.events.get(&kind).copied().unwrap_or(0);
        format!(
            "records accepted {}; refused {{{}}}\nevents: processed {}, late {}, unknown {}\n\
             locators listed as final {}, stored shares of these {}; asked about and not final {}; pending items {}; questions {}\n\
             of pending ones, somebody to ring {}, nobody {}, 60 {}\n\
             stored blocks asked for their time: {} have one, {} have none\n\
             answers over damaged memory (0: none refused) {{{}}}",
            self.accepted,
            each(&self.refused),
            kind(Kind::Processed),
            kind(Kind::Late),
            kind(Kind::Unknown),
            self.finals,
            self.shares,
            self.not_finals,
            self.pending,
            self.questions,
            self.rung[0],
            self.rung[1],
            self.rung[2],
            self.times[1],
            self.times[0],
            each(&self.damaged),
        )
    }
}
