//! `draw`: the graph, rounds from left to right and owners from top to bottom, as a page for a browser or as a drawing.

mod beside;
mod page;
mod scene;
mod story;
mod svg;

use std::collections::BTreeSet;
use std::io::Write;

use lomkhvide::{Locator, Owners};

use super::Fault;
use super::account::{Account, blocks_certify};
use super::asked::Asked;
use super::input::Input;
use super::json::Json;
use super::members::Tally;
use super::run::{Run, Voice, Vote};
use scene::Scene;
use story::Story;

/// The most blocks of a drawing that shows the ways from certificates to votes: beyond these they would cover each other.
const MOST_WITH_WAYS: usize = 100;

/// The most locators that a page offers.
const MOST_CHOICES: usize = 2_000;

/// What a drawing shows of a locator.
pub struct View {
    pub name: String,
    pub is_final: bool,
    pub verdict: &'static str,
    pub says: String,
    /// The blocks that speak of it, each with its words.
    pub voices: Vec<(usize, Voice, String)>,
    pub certifying: Vec<usize>,
    pub votes: Bar,
    pub certificates: Bar,
    /// The lines from certificates to votes, as a path of the drawing; none in a large graph.
    pub ways: String,
}

/// Owners out of all, with their stake.
pub struct Bar {
    pub owners: Owners,
    pub says: String,
}

/// The locators that are shown, and how many were left out.
struct Choices {
    locators: Vec<Locator>,
    left_out: usize,
}

pub fn draw(run: &Run, input: &Input, asked: &Asked, chosen: Option<Locator>, out: &mut dyn Write) -> Result<(), Fault> {
    let scene = Scene::new(run);
    let choices = choices(run, chosen)?;
    if asked.svg {
        let first = match chosen {
            Some(chosen) => Some(View::new(run, &scene, &chosen)?),
            None => first_choice(choices.locators.iter().map(|locator| View::new(run, &scene, locator)))?,
        };
        out.write_all(svg::drawing(run, &scene, first.as_ref()).as_bytes())?;
        return Ok(());
    }
    let story = Story::new(run, input, asked, &choices.locators)?;
    let shown = match chosen {
        Some(chosen) => story.changes.iter().position(|change| change.locator == chosen),
        None => (!story.changes.is_empty()).then_some(0),
    };
    out.write_all(page::page(run, &scene, &story, shown, choices.left_out, asked)?.as_bytes())?;
    Ok(())
}

/// What the page knows, for a script.
pub fn json(run: &Run, input: &Input, asked: &Asked, chosen: Option<Locator>) -> Result<Json, Fault> {
    Ok(Story::new(run, input, asked, &choices(run, chosen)?.locators)?.json(run))
}

/// The first final one, else the first.
fn first_choice(views: impl Iterator<Item = Result<View, Fault>>) -> Result<Option<View>, Fault> {
    let mut first = None;
    for view in views {
        let view = view?;
        if view.is_final {
            return Ok(Some(view));
        }
        first = first.or(Some(view));
    }
    Ok(first)
}

/// The stored shares and the final locators, ascending.
fn choices(run: &Run, chosen: Option<Locator>) -> Result<Choices, Fault> {
    let mut all: BTreeSet<Locator> = BTreeSet::new();
    for block in &run.blocks {
        all.extend(block.record.shares().map(|(share, _)| share));
    }
    let mut left_out = all.len().saturating_sub(MOST_CHOICES);
    all = all.into_iter().take(MOST_CHOICES).collect();
    for stretch in run.finals_wide()? {
        let (block, mut offsets) = (stretch.first.reference(), stretch.first.offset()..stretch.end);
        while all.len() < MOST_CHOICES {
            let Some(offset) = offsets.next() else { break };
            all.insert(block.at(offset));
        }
        let shares = run.place(&block).map_or(0, |place| {
            run.blocks[place].record.shares().filter(|(share, _)| offsets.contains(&share.offset())).count()
        });
        left_out += (offsets.end - offsets.start) as usize - shares;
    }
    all.extend(chosen);
    Ok(Choices { locators: all.into_iter().collect(), left_out })
}

impl View {
    fn new(run: &Run, scene: &Scene, locator: &Locator) -> Result<View, Fault> {
        let account = Account::new(run, locator)?;
        let total = run.members.total();
        let words = |(block, voice): &(usize, Voice)| {
            let stake = run.members.stake(run.blocks[*block].owner);
            let words = match (voice.vote, voice.rejects) {
                (Some(Vote::Shares), false) => format!("shares +{stake}"),
                (Some(Vote::Accepts), false) => format!("accepts +{stake}"),
                (Some(Vote::Covers), false) => format!("range +{stake}"),
                (Some(_), true) => format!("+{stake}, rejects"),
                (None, _) => "rejects".into(),
            };
            (*block, *voice, words)
        };
        let bar = |tally: &Tally| Bar { owners: tally.owners, says: format!("{} of {total}", tally.stake) };
        Ok(View {
            name: account.name(run),
            is_final: account.is_final,
            verdict: account.verdict(run),
            says: says(run, &account),
            voices: account.voices.iter().map(words).collect(),
            votes: bar(&account.voted),
            certificates: bar(&account.certified),
            ways: ways(run, scene, &account)?,
            certifying: account.certifying,
        })
    }

    /// "Share 0 of record 5: final".
    pub fn title(&self) -> String {
        let mut title = format!("{}: {}", self.name, self.verdict);
        title[..1].make_ascii_uppercase();
        title
    }
}

/// Why, in a line.
fn says(run: &Run, account: &Account) -> String {
    let quorum = run.members.quorum();
    let mut count = blocks_certify(account.certifying.len());
    count[..1].make_ascii_uppercase();
    let certified = match (account.certifying.len(), account.certified.owners.len()) {
        (0, _) => format!("{count} it"),
        (1, _) => format!("{count} it, and its owner holds stake {}", account.certified.stake),
        (_, 1) => format!("{count} it, and their owner holds stake {}", account.certified.stake),
        _ => format!("{count} it, and their owners hold stake {}", account.certified.stake),
    };
    let so_far = match &account.pending {
        Some(item) if !account.is_final => format!("; its counted votes hold stake {}", item.stake),
        _ => String::new(),
    };
    format!("{certified}{so_far}; quorum begins at {quorum} of {}", run.members.total())
}

/// The ways that a slip names, each line once.
fn ways(run: &Run, scene: &Scene, account: &Account) -> Result<String, Fault> {
    if !account.is_final || run.blocks.len() > MOST_WITH_WAYS {
        return Ok(String::new());
    }
    let mut steps = BTreeSet::new();
    if let Some(slip) = run.slip(&account.locator)? {
        for certifier in slip.certifiers() {
            let Some(from) = run.place(&certifier.block) else { continue };
            for voter in &certifier.voters {
                steps.extend(run.walk(from, &voter.path).windows(2).map(|step| (step[0], step[1])));
            }
        }
    }
    Ok(steps.into_iter().map(|(from, to)| scene.line(from, to)).collect())
}

/// Numbers as first and last of each span, one after the other: those that stand together mostly follow each other.
fn spans(numbers: &[usize]) -> Json {
    let mut sorted = numbers.to_vec();
    sorted.sort_unstable();
    sorted.dedup();
    let mut spans: Vec<usize> = Vec::new();
    for number in sorted {
        match spans.last_mut() {
            Some(last) if *last + 1 == number => *last = number,
            _ => spans.extend([number, number]),
        }
    }
    spans.into_iter().collect()
}
