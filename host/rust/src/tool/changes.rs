//! `explain` without a locator: every change in words.

use std::collections::BTreeSet;
use std::io::Write;

use lomkhvide::{Locator, Reference, Statement, Stretch};

use super::Fault;
use super::account::{Account, Stage};
use super::explain::{Manner, ring_line};
use super::json::{Json, object};
use super::run::Run;

/// The most changes of each sort that are told of, where not all are asked for.
const MOST: usize = 24;

/// Neighbouring offsets of a block, from a first one to an end (excluded).
#[derive(Clone, Copy, Debug, PartialEq, Eq)]
struct Offsets {
    block: Reference,
    start: u64,
    end: u64,
}

/// The final shares, those that are not yet final, and what was voted for and never sent; each in ascending order.
pub struct Changes {
    finals: Vec<(Offsets, Stretch)>,
    open: Vec<Locator>,
    never_sent: Vec<(Offsets, bool)>,
}

impl Offsets {
    fn count(&self) -> u64 {
        self.end - self.start
    }

    /// "1/0/00000005/0", or "1/0/00000005/0 to 7".
    fn name(&self) -> String {
        match self.count() {
            1 => format!("{:#}", self.block.at(self.start)),
            _ => format!("{:#} to {}", self.block.at(self.start), self.end - 1),
        }
    }
}

impl Changes {
    pub fn new(run: &Run) -> Result<Changes, Fault> {
        let wide = run.finals_wide()?;
        let mut finals = Vec::new();
        let mut final_shares: BTreeSet<Locator> = BTreeSet::new();
        for stretch in &wide {
            for part in parts(run, &(stretch.first.reference(), stretch.first.offset(), stretch.end), true) {
                final_shares.extend((part.start..part.end).map(|offset| part.block.at(offset)));
                finals.push((part, *stretch));
            }
        }
        let mut open: Vec<Locator> =
            run.blocks.iter().flat_map(|block| block.record.shares().map(|(share, _)| share).collect::<Vec<_>>()).collect();
        open.retain(|share| !final_shares.contains(share));
        open.sort();
        let mut never_sent = Vec::new();
        for block in run.spoken_of() {
            for (start, end) in voted(run, &block) {
                for part in parts(run, &(block, start, end), false) {
                    never_sent.extend(by_finality(part, &wide));
                }
            }
        }
        Ok(Changes { finals, open, never_sent })
    }

    /// "3 changes: 1 final, 1 not yet final, 1 voted for and never sent".
    fn counts(&self) -> [u64; 3] {
        let finals = self.finals.iter().map(|(part, _)| part.count()).sum();
        [finals, self.open.len() as u64, self.never_sent.iter().map(|(part, _)| part.count()).sum()]
    }
}

/// The stretches of offsets that are voted for in a block, joined where they touch.
fn voted(run: &Run, block: &Reference) -> Vec<(u64, u64)> {
    let mut ranges: Vec<(u64, u64)> = Vec::new();
    for i in run.speaking_of(block) {
        for statement in run.blocks[i].record.statements() {
            match statement {
                Statement::Accept(locator) if locator.reference() == *block => {
                    ranges.push((locator.offset(), locator.offset() + 1))
                }
                Statement::Range { first, end } if first.reference() == *block && first.offset() < end => {
                    ranges.push((first.offset(), end));
                }
                _ => (),
            }
        }
    }
    ranges.sort_unstable();
    let mut joined: Vec<(u64, u64)> = Vec::new();
    for (start, end) in ranges {
        match joined.last_mut() {
            Some(last) if start <= last.1 => last.1 = last.1.max(end),
            _ => joined.push((start, end)),
        }
    }
    joined
}

/// The parts of a stretch that are stored shares, or those that are none.
fn parts(run: &Run, (block, start, end): &(Reference, u64, u64), shares: bool) -> Vec<Offsets> {
    let record = run.place(block).map(|place| &run.blocks[place].record);
    let offsets: Vec<u64> = record.map_or(Vec::new(), |record| {
        record.shares().map(|(share, _)| share.offset()).filter(|offset| (*start..*end).contains(offset)).collect()
    });
    let mut parts: Vec<Offsets> = Vec::new();
    if shares {
        for offset in offsets {
            match parts.last_mut() {
                Some(last) if last.end == offset => last.end += 1,
                _ => parts.push(Offsets { block: *block, start: offset, end: offset + 1 }),
            }
        }
        return parts;
    }
    let mut from = *start;
    for offset in offsets.into_iter().chain([*end]) {
        if from < offset {
            parts.push(Offsets { block: *block, start: from, end: offset });
        }
        from = offset.saturating_add(1);
    }
    parts
}

/// The parts of a stretch that are final, and those that are not.
fn by_finality(part: Offsets, finals: &[Stretch]) -> Vec<(Offsets, bool)> {
    let mut cut = Vec::new();
    let mut from = part.start;
    let from_here = finals.partition_point(|stretch| stretch.first.reference() < part.block);
    for stretch in finals[from_here..].iter().take_while(|stretch| stretch.first.reference() == part.block) {
        let (start, end) = (stretch.first.offset().max(from), stretch.end.min(part.end));
        if start < end {
            if from < start {
                cut.push((Offsets { start: from, end: start, ..part }, false));
            }
            cut.push((Offsets { start, end, ..part }, true));
            from = end;
        }
    }
    if from < part.end {
        cut.push((Offsets { start: from, ..part }, false));
    }
    cut
}

/// A change in words, with its facts for a script.
struct Told {
    words: String,
    facts: Json,
}

fn told_final(run: &Run, part: &Offsets, stretch: &Stretch, loadable: &BTreeSet<Locator>) -> Told {
    let (blocks, total) = (stretch.blocks, run.members.total());
    let certify = if blocks == 1 { "1 block certifies".into() } else { format!("{blocks} blocks certify") };
    let may = |offset: u64| loadable.contains(&part.block.at(offset));
    let (first, same) = (may(part.start), (part.start..part.end).all(|offset| may(offset) == may(part.start)));
    let load = match (first, same) {
        (true, true) => "a station may load it",
        (false, true) => "no station may load it",
        (_, false) => "a station may load some of them",
    };
    let words = format!("{}{}: {certify} it, stake {} of {total}; {load}.", part.name(), of_record(run, part), stretch.stake);
    let loads: Json = (part.start..part.end).map(|offset| Json::Bool(may(offset))).collect();
    let facts = object([
        ("locator", part.block.at(part.start).to_string().into()),
        ("end", part.end.into()),
        ("final", true.into()),
        ("sent", true.into()),
        ("certifyingBlocks", blocks.into()),
        ("certifyingStake", stretch.stake.into()),
        ("loadable", loads),
    ]);
    Told { words, facts }
}

/// ", share 0 of record 5", or ", shares 0 to 7 of record 5".
fn of_record(run: &Run, part: &Offsets) -> String {
    let number = run.place(&part.block).map_or(0, |place| run.blocks[place].number);
    match part.count() {
        1 => format!(", share {} of record {number}", part.start),
        _ => format!(", shares {} to {} of record {number}", part.start, part.end - 1),
    }
}

fn told_open(run: &Run, share: &Locator, manner: &Manner) -> Result<Told, Fault> {
    let account = Account::new(run, share)?;
    let (total, quorum) = (run.members.total(), run.members.quorum());
    let lacks = match account.stage() {
        Stage::Certificates => format!(
            "its votes suffice, its certificates hold stake {} of {total}, quorum begins at {quorum}",
            account.certified.stake
        ),
        _ => format!("its votes hold stake {} of {total}, quorum begins at {quorum}", account.voted.stake),
    };
    let ring = ring_line(run, &account, manner)?;
    let words = format!("{share:#}, {}: {lacks}. {ring}", account.name(run));
    Ok(Told { words, facts: account.json(run, manner.reachable)? })
}

fn told_never_sent(run: &Run, part: &Offsets, is_final: bool) -> Result<Told, Fault> {
    let account = Account::new(run, &part.block.at(part.start))?;
    let refused = run.refused_record(&part.block);
    let sent = match (run.place(&part.block), refused) {
        (Some(place), _) => format!("record {} has no share there", run.blocks[place].number),
        (None, Some(trouble)) => format!("record {}, which holds its block, was refused: {}", trouble.number, trouble.reason()),
        (None, None) => "nobody sent its block".into(),
    };
    let verdict = if is_final { "final, and there is nothing to load" } else { "not final" };
    let (voted, total) = (&account.voted, run.members.total());
    let words =
        format!("{}: {sent}; {} stake {} of {total}: {verdict}.", part.name(), run.members.hold(voted.owners), voted.stake);
    let facts = object([
        ("locator", part.block.at(part.start).to_string().into()),
        ("end", part.end.into()),
        ("final", is_final.into()),
        ("sent", false.into()),
        ("refused", refused.map(|trouble| trouble.json(run)).into()),
        ("voters", account.voted.owners.iter().collect()),
        ("stake", account.voted.stake.into()),
    ]);
    Ok(Told { words, facts })
}

/// A sort of changes: its heading, those that are told of, and how many there are.
type Sort = (&'static str, &'static str, Vec<Told>, usize);

fn sorts(run: &Run, changes: &Changes, manner: &Manner) -> Result<[Sort; 3], Fault> {
    let most = if manner.all { usize::MAX } else { MOST };
    let loadable = run.loadable_list()?;
    let finals = changes.finals.iter().take(most).map(|(part, stretch)| told_final(run, part, stretch, &loadable)).collect();
    let open = changes.open.iter().take(most).map(|share| told_open(run, share, manner)).collect::<Result<_, _>>()?;
    let never_sent = changes.never_sent.iter().take(most);
    let never_sent = never_sent.map(|(part, is_final)| told_never_sent(run, part, *is_final)).collect::<Result<_, _>>()?;
    Ok([
        ("Final:", "final", finals, changes.finals.len()),
        ("Not yet final:", "open", open, changes.open.len()),
        ("Voted for and never sent:", "neverSent", never_sent, changes.never_sent.len()),
    ])
}

pub fn every_change(run: &Run, manner: &Manner, out: &mut dyn Write) -> Result<(), Fault> {
    let changes = Changes::new(run)?;
    let [finals, open, never_sent] = changes.counts();
    let reading = if run.withdrawing() { ", where owners may withdraw" } else { "" };
    writeln!(out, "{finals} final, {open} not yet final, {never_sent} voted for and never sent{reading}.")?;
    writeln!(out, "{}", run.members.line())?;
    for (heading, _, told, count) in sorts(run, &changes, manner)? {
        if count == 0 {
            continue;
        }
        writeln!(out, "\n{heading}")?;
        for change in &told {
            writeln!(out, "  {}", change.words)?;
        }
        if told.len() < count {
            writeln!(out, "  and {} more; --all shows them", count - told.len())?;
        }
    }
    Ok(())
}

pub fn json(run: &Run, manner: &Manner) -> Result<Json, Fault> {
    let changes = Changes::new(run)?;
    let [finals, open, never_sent] = changes.counts();
    let mut entries =
        vec![("counts", object([("final", finals.into()), ("open", open.into()), ("neverSent", never_sent.into())]))];
    for (_, name, told, count) in sorts(run, &changes, manner)? {
        let left_out = count - told.len();
        let told: Json = told.into_iter().map(|change| change.facts).collect();
        entries.push((name, object([("told", told), ("leftOut", left_out.into())])));
    }
    Ok(Json::Object(entries))
}
