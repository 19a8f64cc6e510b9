//! 01, "Interpreter": voters, certificates, final locators.

use std::collections::{BTreeMap, BTreeSet};

use super::committee::{Committee, Votes};
use super::mistake::Mistake;
use super::record::{Block, Locator, Reference, Statement};
use super::store::Stores;

/// 02, "Twelve": what a reject means. In the old reading nothing; in the other it withdraws its owner's votes for its first locator, in every
/// block that has it in its inclusive ancestry.
#[derive(Clone, Copy, PartialEq, Eq, Debug)]
pub enum Reading {
    Old,
    Withdrawing,
}

/// What is answered about a locator: final or not, and the blocks that certify it, in ascending order of reference.
#[derive(Clone, PartialEq, Eq, Debug)]
pub struct Finality {
    pub is_final: bool,
    pub certifying: Vec<Reference>,
    /// The stake of their authors, each once.
    pub stake: u64,
}

/// Which list is asked for: the ordinary one has the final locators that name a stored share, the wide one every final locator.
#[derive(Clone, Copy, PartialEq, Eq, Debug)]
pub enum Listed {
    Ordinary,
    Wide,
}

/// The stored blocks in ascending order of reference, each with its inclusive ancestry: whether the block at each place up to its own is in it.
pub struct Graph<'a> {
    committee: &'a Committee,
    blocks: Vec<&'a Block>,
    ancestries: Vec<Vec<bool>>,
}

/// Locators, each with the places of the blocks that say something about it, ascending.
type Said = BTreeMap<Locator, Vec<usize>>;

impl<'a> Graph<'a> {
    pub fn new(committee: &'a Committee, stores: &'a Stores) -> Graph<'a> {
        let blocks: Vec<&Block> = stores.index.values().map(|i| &stores.blocks[*i].block).collect();
        let mut ancestries: Vec<Vec<bool>> = Vec::new();
        for (place, block) in blocks.iter().enumerate() {
            if block.marked && committee.makes(Mistake::MarkedBlock) {
                ancestries.push(vec![]);
                continue;
            }
            let mut ancestry = vec![false; place + 1];
            ancestry[place] = true;
            for include in &block.includes {
                let include = blocks.binary_search_by_key(include, |block| block.reference).unwrap();
                ancestry.iter_mut().zip(&ancestries[include]).for_each(|(has, below)| *has |= *below);
            }
            ancestries.push(ancestry);
        }
        Graph { committee, blocks, ancestries }
    }

    pub fn finality(&self, locator: &Locator) -> Finality {
        self.finality_in(Reading::Old, locator)
    }

    pub fn finality_in(&self, reading: Reading, locator: &Locator) -> Finality {
        let places = |says: fn(&Block, &Locator) -> bool| {
            (0..self.blocks.len()).filter(|place| says(self.blocks[*place], locator)).collect::<Vec<_>>()
        };
        let rejecting = if reading == Reading::Withdrawing { places(rejects) } else { vec![] };
        self.judged(&places(votes_for), &rejecting)
    }

    /// The finality of what the blocks at these places vote for and those at the others reject.
    fn judged(&self, voting: &[usize], rejecting: &[usize]) -> Finality {
        let mut certifying = Vec::new();
        let mut authors = Votes::default();
        let mut is_final = false;
        for (block, ancestry) in self.blocks.iter().zip(&self.ancestries) {
            let owners = |saying: &[usize]| {
                let below = saying.iter().filter(|place| ancestry.get(**place) == Some(&true));
                below.fold(0u128, |owners, place| owners | 1 << self.blocks[*place].reference.author)
            };
            let voters = owners(voting) & !owners(rejecting);
            if !block.marked && self.committee.is_quorum(self.committee.stake_of(voters)) {
                certifying.push(block.reference);
                is_final = self.committee.vote(&mut authors, block.reference.author);
            }
        }
        Finality { is_final, certifying, stake: authors.stake }
    }

    /// Every locator that the blocks say something about, by what each of their statements names.
    fn said<L: IntoIterator<Item = Locator>>(&self, named: impl Fn(&Block, u64, &Statement) -> L) -> Said {
        let mut said = Said::new();
        for (place, block) in self.blocks.iter().enumerate() {
            for (offset, statement) in block.statements.iter().enumerate() {
                for locator in named(block, offset as u64, statement) {
                    let places = said.entry(locator).or_default();
                    if places.last() != Some(&place) {
                        places.push(place);
                    }
                }
            }
        }
        said
    }

    /// Every locator with a vote: no other can be final.
    fn votes(&self) -> Said {
        self.said(|block, index, statement| {
            let (reference, offsets) = match statement {
                Statement::Share(_) => (block.reference, index..index + 1),
                Statement::Accept(locator) => (locator.block, locator.offset..locator.offset + 1),
                Statement::Range(reference, start, end) => (*reference, *start..*end),
                Statement::Reject(..) => (block.reference, 0..0),
            };
            offsets.map(move |offset| Locator::new(reference, offset))
        })
    }

    /// Every locator with a reject, its first.
    fn rejections(&self) -> Said {
        self.said(|_, _, statement| match statement {
            Statement::Reject(locator, _) => Some(*locator),
            _ => None,
        })
    }

    /// Every locator with a vote, ascending.
    pub fn voted(&self) -> BTreeSet<Locator> {
        self.votes().into_keys().collect()
    }

    /// Every final locator: the wide list.
    pub fn final_list(&self) -> Vec<(Locator, Finality)> {
        self.final_list_in(Reading::Old)
    }

    /// What `finality_in` says of each locator with a vote, where the statements are read once for all of them. The voters of a block are among all
    /// who vote: where these hold no quorum, nothing is asked.
    pub fn final_list_in(&self, reading: Reading) -> Vec<(Locator, Finality)> {
        let rejections = if reading == Reading::Withdrawing { self.rejections() } else { Said::new() };
        let rejecting = |locator: &Locator| rejections.get(locator).map_or(&[][..], Vec::as_slice);
        let of_quorum = |voting: &[usize]| {
            let owners = voting.iter().fold(0u128, |owners, place| owners | 1 << self.blocks[*place].reference.author);
            self.committee.is_quorum(self.committee.stake_of(owners))
        };
        let voted = self.votes().into_iter().filter(|(_, voting)| of_quorum(voting));
        let each = voted.map(|(locator, voting)| (locator, self.judged(&voting, rejecting(&locator))));
        each.filter(|(_, finality)| finality.is_final).collect()
    }

    /// The list that is asked for: of every final locator, or of those that name a stored share.
    pub fn listed(&self, list: Listed) -> Vec<(Locator, Finality)> {
        self.listed_in(Reading::Old, list)
    }

    /// The same in a reading of a reject.
    pub fn listed_in(&self, reading: Reading, list: Listed) -> Vec<(Locator, Finality)> {
        let finals = self.final_list_in(reading).into_iter();
        finals.filter(|(locator, _)| list == Listed::Wide || self.names_share(locator)).collect()
    }

    /// Whether a stored block has the share.
    pub fn names_share(&self, locator: &Locator) -> bool {
        let place = self.blocks.binary_search_by_key(&locator.block, |block| block.reference);
        place.is_ok_and(|place| self.blocks[place].shares(locator.offset))
    }

    /// Every locator that a stored block rejects.
    pub fn rejected(&self) -> BTreeSet<Locator> {
        self.rejections().into_keys().collect()
    }
}

/// Whether the block has a reject of the locator, its first.
pub fn rejects(block: &Block, locator: &Locator) -> bool {
    block.statements.iter().any(|statement| matches!(statement, Statement::Reject(first, _) if first == locator))
}

/// Whether the block has the share, an accept or a range covering the locator.
pub(super) fn votes_for(block: &Block, locator: &Locator) -> bool {
    let covers = |statement: &Statement| match statement {
        Statement::Accept(accepted) => accepted == locator,
        Statement::Range(reference, start, end) => {
            *reference == locator.block && *start <= locator.offset && locator.offset < *end
        }
        _ => false,
    };
    (block.reference == locator.block && block.shares(locator.offset)) || block.statements.iter().any(covers)
}
