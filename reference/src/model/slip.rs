//! 02, "A slip for the station": slips read and written, in both readings of "An owner may withdraw".

use std::collections::{BTreeMap, BTreeSet, VecDeque};

use super::committee::Committee;
use super::finality::{rejects, votes_for, Reading};
use super::lent::Answer;
use super::record::{locator_of, put_locator, put_reference, Block, Locator, Reader, Reference};
use super::store::{check_body, check_head, Stores, MAX_BLOCKS};

#[derive(Clone, PartialEq, Eq, Debug)]
pub struct Voter {
    pub author: u64,
    pub path: Vec<u8>,
}

#[derive(Clone, PartialEq, Eq, Debug)]
pub struct Certifier {
    pub reference: Reference,
    pub voters: Vec<Voter>,
}

#[derive(Clone, PartialEq, Eq, Debug)]
pub struct Slip {
    pub reading: Reading,
    pub locator: Locator,
    pub certifiers: Vec<Certifier>,
}

/// Blocks by their references.
pub type Blocks = BTreeMap<Reference, Block>;

fn ascend<T: PartialOrd>(keys: impl Iterator<Item = T>) -> bool {
    let keys: Vec<T> = keys.collect();
    keys.windows(2).all(|pair| pair[0] < pair[1])
}

impl Slip {
    /// After the first byte, "the locator, a count (2 bytes) of certifying blocks, each its reference and a count (1) of voters, each its
    /// author, path length (2) and path of include places (1 each) .., both lists strictly ascending".
    pub fn decode(bytes: &[u8]) -> Option<Slip> {
        let reading = reading_of(bytes)?;
        let mut reader = Reader(&bytes[1..]);
        let locator = reader.locator()?;
        let mut certifiers = Vec::new();
        for _ in 0..reader.number(2)? {
            let reference = reader.reference()?;
            let mut voters = Vec::new();
            for _ in 0..reader.number(1)? {
                let author = reader.number(8)?;
                let length = reader.number(2)? as usize;
                voters.push(Voter { author, path: reader.take(length)?.to_vec() });
            }
            certifiers.push(Certifier { reference, voters });
        }
        let slip = Slip { reading, locator, certifiers };
        let in_order = ascend(slip.certifiers.iter().map(|certifier| certifier.reference))
            && slip.certifiers.iter().all(|certifier| ascend(certifier.voters.iter().map(|voter| voter.author)));
        (reader.0.is_empty() && in_order).then_some(slip)
    }

    pub fn encode(&self) -> Vec<u8> {
        let mut out = vec![(self.reading == Reading::Withdrawing) as u8];
        put_locator(&mut out, &self.locator);
        out.extend((self.certifiers.len() as u16).to_le_bytes());
        for certifier in &self.certifiers {
            put_reference(&mut out, &certifier.reference);
            out.push(certifier.voters.len() as u8);
            for voter in &certifier.voters {
                out.extend(voter.author.to_le_bytes());
                out.extend((voter.path.len() as u16).to_le_bytes());
                out.extend(&voter.path);
            }
        }
        out
    }
}

/// "Slips name their reading in their first byte, 0 the old and 1 the new"; none for "another first byte or none".
fn reading_of(bytes: &[u8]) -> Option<Reading> {
    match bytes.first()? {
        0 => Some(Reading::Old),
        1 => Some(Reading::Withdrawing),
        _ => None,
    }
}

/// Records, "each after a 4-byte length".
pub fn framed<'a>(records: impl IntoIterator<Item = &'a Vec<u8>>) -> Vec<u8> {
    let mut out = Vec::new();
    for record in records {
        out.extend((record.len() as u32).to_le_bytes());
        out.extend(record);
    }
    out
}

/// None for "records of another form, over 1,024 records, two of one reference or one that 20 to 22 or 24 to 29 refuse".
fn supplied(committee: &Committee, records: &[u8]) -> Option<Blocks> {
    let (mut blocks, mut reader) = (Blocks::new(), Reader(records));
    while !reader.0.is_empty() {
        let length = reader.number(4)? as usize;
        let block = Block::decode(reader.take(length)?)?;
        check_head(committee, &block).ok()?;
        check_body(committee, &block).ok()?;
        if blocks.len() == MAX_BLOCKS || blocks.insert(block.reference, block).is_some() {
            return None;
        }
    }
    Some(blocks)
}

/// Where a path leads: a block; nothing, where a place is past the end of the includes; or one that was not supplied.
enum Led<'a> {
    To(&'a Block),
    Nowhere,
    Missing,
}

fn walk<'a>(blocks: &'a Blocks, from: &'a Block, path: &[u8]) -> Led<'a> {
    let mut at = from;
    for place in path {
        let Some(include) = at.includes.get(*place as usize) else { return Led::Nowhere };
        let Some(next) = blocks.get(include) else { return Led::Missing };
        at = next;
    }
    Led::To(at)
}

/// The inclusive ancestry of a block; none where one of its blocks is not there.
fn ancestry<'a>(blocks: &'a Blocks, from: &'a Block) -> Option<BTreeMap<Reference, &'a Block>> {
    let (mut met, mut ahead) = (BTreeMap::new(), vec![from]);
    while let Some(block) = ahead.pop() {
        if met.insert(block.reference, block).is_none() {
            for include in &block.includes {
                ahead.push(blocks.get(include)?);
            }
        }
    }
    Some(met)
}

/// What a slip names: the blocks of its certifiers and those on its paths, and of a new slip "every block of each certifier's ancestry"; none where
/// one of them is not there.
pub fn named(blocks: &Blocks, slip: &Slip) -> Option<BTreeSet<Reference>> {
    let mut named = BTreeSet::new();
    for certifier in &slip.certifiers {
        let block = blocks.get(&certifier.reference)?;
        named.insert(block.reference);
        if slip.reading == Reading::Withdrawing {
            named.extend(ancestry(blocks, block)?.keys());
        }
        for voter in &certifier.voters {
            for steps in 1..=voter.path.len() {
                match walk(blocks, block, &voter.path[..steps]) {
                    Led::To(next) => named.insert(next.reference),
                    Led::Nowhere => break,
                    Led::Missing => return None,
                };
            }
        }
    }
    Some(named)
}

/// The stake of authors, each once; those whom the committee does not know have none.
fn stake(committee: &Committee, authors: impl Iterator<Item = u64>) -> u64 {
    committee.stake_of(authors.filter(|author| committee.knows(*author)).fold(0, |set, author| set | 1 << author))
}

/// "every path ends at its author's vote, each block is unmarked and lists quorum voters, and their authors hold quorum"; a new slip "does not
/// hold if a listed voter rejects" in the certifier's ancestry.
fn holds(committee: &Committee, blocks: &Blocks, slip: &Slip) -> bool {
    let right = |certifier: &Certifier| {
        let block = &blocks[&certifier.reference];
        let voted = |voter: &Voter| match walk(blocks, block, &voter.path) {
            Led::To(end) => end.reference.author == voter.author && votes_for(end, &slip.locator),
            _ => false,
        };
        let withdrawn = slip.reading == Reading::Withdrawing
            && ancestry(blocks, block).unwrap().values().any(|below| {
                let listed = certifier.voters.iter().any(|voter| voter.author == below.reference.author);
                listed && rejects(below, &slip.locator)
            });
        let voters = stake(committee, certifier.voters.iter().map(|voter| voter.author));
        !withdrawn && !block.marked && certifier.voters.iter().all(voted) && committee.is_quorum(voters)
    };
    let authors = stake(committee, slip.certifiers.iter().map(|certifier| certifier.reference.author));
    slip.certifiers.iter().all(right) && committee.is_quorum(authors)
}

/// "another first byte or none answers 61 right after 5"; "Reading answers 5; 52 ..; 53 for one named, also by path, but not supplied; then 52 for a slip that does not hold".
pub fn read_slip(stakes: &[u8], slip: &[u8], records: &[u8]) -> Answer {
    let committee = Committee::lent(stakes)?;
    reading_of(slip).ok_or(61u64)?;
    let slip = Slip::decode(slip).ok_or(52u64)?;
    let blocks = supplied(&committee, records).ok_or(52u64)?;
    named(&blocks, &slip).ok_or(53u64)?;
    if holds(&committee, &blocks, &slip) {
        Ok(slip.certifiers.len() as u64)
    } else {
        Err(52)
    }
}

/// A block's voters, in the new reading "less the rejecting owners", each with the "shortest, then first, path" to its vote: blocks are met in the order of their paths' lengths, and
/// of these in the order of places.
fn voters(reading: Reading, blocks: &Blocks, from: &Block, locator: &Locator) -> Vec<Voter> {
    let (mut found, mut rejecting) = (BTreeMap::new(), BTreeSet::new());
    let mut seen = BTreeSet::from([from.reference]);
    let mut ahead = VecDeque::from([(from, Vec::new())]);
    while let Some((block, path)) = ahead.pop_front() {
        if votes_for(block, locator) {
            found.entry(block.reference.author).or_insert(path.clone());
        }
        if reading == Reading::Withdrawing && rejects(block, locator) {
            rejecting.insert(block.reference.author);
        }
        for (place, include) in block.includes.iter().enumerate() {
            if seen.insert(*include) {
                ahead.push_back((&blocks[include], [&path[..], &[place as u8]].concat()));
            }
        }
    }
    found.into_iter().filter(|(author, _)| !rejecting.contains(author)).map(|(author, path)| Voter { author, path }).collect()
}

/// "for every final locator, a slip .. naming all certifiers and voters"; none for a locator that is not final.
pub fn slip_for(reading: Reading, committee: &Committee, blocks: &Blocks, locator: &Locator) -> Option<Slip> {
    let mut certifiers = Vec::new();
    for block in blocks.values().filter(|block| !block.marked) {
        let voters = voters(reading, blocks, block, locator);
        if committee.is_quorum(stake(committee, voters.iter().map(|voter| voter.author))) {
            certifiers.push(Certifier { reference: block.reference, voters });
        }
    }
    let authors = stake(committee, certifiers.iter().map(|certifier| certifier.reference.author));
    committee.is_quorum(authors).then_some(Slip { reading, locator: *locator, certifiers })
}

pub fn blocks_of(stores: &Stores) -> Blocks {
    stores.blocks.iter().map(|stored| (stored.block.reference, stored.block.clone())).collect()
}

/// "Writing answers 5; 10; 52 for a locator not final; 50 for a short slice"; 20 for a locator not of 56 bytes stands after 10.
pub fn write_slip(reading: Reading, stakes: &[u8], store: &[u8], locator: &[u8], out: &mut [u8]) -> Answer {
    let committee = Committee::lent(stakes)?;
    let stores = Stores::read(&committee, store)?;
    let locator = locator_of(locator).ok_or(20u64)?;
    let slip = slip_for(reading, &committee, &blocks_of(&stores), &locator).ok_or(52u64)?.encode();
    out.get_mut(..slip.len()).ok_or(50u64)?.copy_from_slice(&slip);
    Ok(slip.len() as u64)
}
