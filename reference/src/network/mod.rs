//! A network in small: each owner runs a node with an engine, an engine with the index and the model beside them. Messages come late, twice, out of order or
//! never; an owner makes two blocks a round, one votes for nonsense, one sends damaged records, one is killed and starts again from what it kept; stations
//! get slips. A run is a script of steps, each checked as it is taken, so that one that fails can be made small and shown.

mod checks;
mod node;
mod owners;
mod shrink;
mod world;

use crate::model::mistake::Mistake;
use crate::rng::Rng;
use owners::{make, Role};
use std::collections::BTreeMap;
use world::{Script, Step, World};

pub use shrink::smallest;
pub use world::{replay, Tally};

/// A run that failed: its script, and what differed at its last step.
pub struct Failure {
    pub script: Script,
    pub text: String,
}

/// How many ticks the owners are at work.
const TICKS: u64 = 26;

/// A run under way: the world, and the messages that are on their way by the tick at which they come.
struct Run {
    world: World,
    steps: Vec<Step>,
    ahead: BTreeMap<(u64, u64), Step>,
    rng: Rng,
}

/// Run n of a seed.
pub fn run(seed: u64, n: u64, mistake: Option<Mistake>, tally: &mut Tally) -> Result<(), Failure> {
    let mut rng = Rng::new(seed.wrapping_mul(0x9e37_79b9_7f4a_7c15) ^ n.wrapping_mul(0xd1b5_4a32_d192_ed03));
    // Mostly few: a run of 16 takes as long as 40 runs of 4.
    let owners = match rng.below(20) {
        0..9 => 4,
        9..14 => 5,
        14..17 => 6,
        17 | 18 => 7,
        _ => rng.within(8, 16),
    };
    let most = *rng.pick(&[1, 1, 3, 9]);
    let stakes: Vec<u64> = (0..owners).map(|_| rng.within(1, most)).collect();
    let mut run = Run { world: World::new(&stakes, mistake), steps: vec![], ahead: BTreeMap::new(), rng };
    let outcome = run.go();
    run.world.tally.runs += 1;
    tally.add(&run.world.tally);
    outcome.map_err(|text| Failure { script: Script { stakes, records: run.world.records, steps: run.steps }, text })
}

impl Run {
    fn take(&mut self, step: Step) -> Result<(), String> {
        self.steps.push(step);
        self.world.apply(&step)
    }

    fn go(&mut self) -> Result<(), String> {
        let owners = self.world.nodes.len();
        let roles: Vec<Role> = (0..owners).map(|_| Role::chance(&mut self.rng)).collect();
        // With many owners fewer rounds, so that runs take alike long.
        let rounds = (28 / owners as u64).clamp(5, 7);
        for tick in 0..TICKS {
            while let Some(((due, _), _)) = self.ahead.first_key_value() {
                if *due > tick {
                    break;
                }
                let step = self.ahead.pop_first().unwrap().1;
                self.take(step)?;
            }
            for (owner, role) in roles.iter().enumerate() {
                self.act(owner, *role, rounds, tick)?;
            }
            self.ask(tick);
        }
        self.settle()
    }

    /// An owner's tick: a block or none, and what is done with the node.
    fn act(&mut self, owner: usize, role: Role, rounds: u64, tick: u64) -> Result<(), String> {
        if self.rng.once_in(2) {
            for made in make(&self.world, owner, role, rounds, &mut self.rng) {
                let record = self.world.add(made.bytes);
                for to in 0..self.world.nodes.len() {
                    self.send(owner, to, record, made.to.is_none_or(|half| half == to % 2), tick);
                }
            }
        }
        if role == Role::Killed {
            match self.rng.below(6) {
                0 | 1 => self.take(Step::Keep(owner))?,
                2 => self.take(Step::Kill(owner))?,
                _ => (),
            }
        }
        match self.rng.below(40) {
            0 => self.take(Step::Look(owner)),
            1 => {
                let seed = self.rng.word();
                self.take(Step::Slip { node: owner, seed })
            }
            _ => Ok(()),
        }
    }

    /// A message: at once to oneself; else late, sometimes twice, sometimes never.
    fn send(&mut self, from: usize, to: usize, record: usize, promptly: bool, tick: u64) {
        let step = Step::Deliver { to, record };
        let times = match self.rng.below(12) {
            _ if from == to => 1,
            0 | 1 => 0,
            2 => 2,
            _ => 1,
        };
        for _ in 0..times {
            let late = match (from == to, promptly) {
                (true, _) => 0,
                (_, true) => self.rng.within(1, 3),
                (_, false) => self.rng.within(3, 9),
            };
            let tie = self.rng.word();
            self.ahead.insert((tick + late, tie), step);
        }
    }

    /// Each node asks for what it lacks; the question or the answer may be lost.
    fn ask(&mut self, tick: u64) {
        for to in 0..self.world.nodes.len() {
            for record in self.world.lacking(to) {
                if self.rng.once_in(2) {
                    let (late, tie) = (self.rng.within(1, 3), self.rng.word());
                    self.ahead.insert((tick + late, tie), Step::Deliver { to, record });
                }
            }
        }
    }

    /// Everything comes to everybody, in any order: then all have the same records, and every list is looked at.
    fn settle(&mut self) -> Result<(), String> {
        let owners = self.world.nodes.len();
        for to in 0..owners {
            let mut records: Vec<usize> = (0..self.world.records.len()).filter(|record| !self.world.has(to, *record)).collect();
            self.rng.shuffle(&mut records);
            for record in records {
                self.take(Step::Deliver { to, record })?;
            }
        }
        for node in 0..owners {
            self.take(Step::Look(node))?;
        }
        for _ in 0..3 {
            let (node, seed) = (self.rng.below(owners as u64) as usize, self.rng.word());
            self.take(Step::Slip { node, seed })?;
        }
        self.world.same_records()
    }
}
