//! `explain`: whether a change is final, and why.

use std::collections::BTreeMap;
use std::io::Write;

use lomkhvide::{AuthorityIndex, Certifier, Locator, Owners, Voter};

use super::Fault;
use super::account::{Account, Stage, blocks_certify};
use super::json::{Json, object};
use super::run::{Run, voice};

/// The most owners whose certificates are shown, and the most votes of each, where not all are asked for.
const MOST_OWNERS: usize = 7;
const MOST_VOTES: usize = 12;

/// Who can be reached, whether that was said, and how much is shown.
#[derive(Clone)]
pub struct Manner {
    pub reachable: Owners,
    pub reach_given: bool,
    /// Numbers that were given and that nobody has.
    pub nobody: Vec<u64>,
    pub all: bool,
}

impl Manner {
    pub const EVERYBODY: Manner = Manner { reachable: Owners::ALL, reach_given: false, nobody: Vec::new(), all: false };
}

pub fn explain(run: &Run, locator: &Locator, manner: &Manner, out: &mut dyn Write) -> Result<(), Fault> {
    let account = Account::new(run, locator)?;
    writeln!(out, "{locator:#}, {}: {}", account.name(run), account.verdict(run))?;
    writeln!(out, "{}", run.members.line())?;
    if let Some(trouble) = run.refused_record(&locator.reference()) {
        writeln!(
            out,
            "Its block was sent in record {}, byte {}, and refused: {}.",
            trouble.number,
            trouble.at,
            trouble.reason()
        )?;
    }
    writeln!(out, "{}.", certified(run, &account))?;
    if !account.is_final {
        return missing(run, &account, manner, out);
    }
    writeln!(out, "{}.", loading(run, locator)?)?;
    certificates(run, &account, manner, out)
}

/// Whether a station may load a final change.
fn loading(run: &Run, locator: &Locator) -> Result<&'static str, Fault> {
    Ok(match run.loadable(locator)? {
        true => "A station may load it",
        false => "No station may load it",
    })
}

/// How many blocks certify, and what their owners hold.
pub fn certified(run: &Run, account: &Account) -> String {
    let mut count = blocks_certify(account.certifying.len());
    count[..1].make_ascii_uppercase();
    if account.certifying.is_empty() {
        return format!("{count} it");
    }
    format!("{count} it; {}", run.members.sum(&account.certified))
}

/// The certifying blocks with their voters: of each owner the first one, and of so many owners, where not all are asked for.
fn certificates(run: &Run, account: &Account, manner: &Manner, out: &mut dyn Write) -> Result<(), Fault> {
    let Some(slip) = run.slip(&account.locator)? else { return Ok(()) };
    let mut of_owner: BTreeMap<AuthorityIndex, usize> = BTreeMap::new();
    let (mut shown, mut hidden) = (0, 0);
    for certifier in slip.certifiers() {
        let Some(from) = run.place(&certifier.block) else { continue };
        let before = of_owner.entry(run.blocks[from].owner).or_default();
        *before += 1;
        if !manner.all && (*before > 1 || of_owner.len() > MOST_OWNERS) {
            hidden += 1;
            continue;
        }
        shown += 1;
        certificate(run, account, from, &certifier, manner, out)?;
    }
    if hidden > 0 {
        writeln!(
            out,
            "\n{shown} certifying blocks are shown, the first of an owner; {hidden} are left out, and --all shows them."
        )?;
    }
    Ok(())
}

fn certificate(
    run: &Run,
    account: &Account,
    from: usize,
    certifier: &Certifier,
    manner: &Manner,
    out: &mut dyn Write,
) -> Result<(), Fault> {
    writeln!(out, "\n{} certifies:", run.block_name(from))?;
    let most = if manner.all { usize::MAX } else { MOST_VOTES };
    for voter in certifier.voters.iter().take(most) {
        writeln!(out, "  {}", voted(run, account, from, voter))?;
    }
    if certifier.voters.len() > most {
        writeln!(out, "  and {} more owners vote; --all shows them", certifier.voters.len() - most)?;
    }
    let voters = run.members.tally(certifier.voters.iter().map(|voter| voter.author));
    writeln!(out, "  {}", run.members.sum(&voters))?;
    Ok(())
}

/// "owner 1, stake 1: record 9 accepts it, by 11 > 9".
fn voted(run: &Run, account: &Account, from: usize, voter: &Voter) -> String {
    let walked = run.walk(from, &voter.path);
    let last = &run.blocks[walked[walked.len() - 1]];
    let verb = voice(&last.record, &account.locator).map_or("votes for it", |voice| voice.verb());
    let numbers: Vec<String> = walked.iter().map(|block| run.blocks[*block].number.to_string()).collect();
    let way = if walked.len() == 1 { "itself".into() } else { format!("by {}", numbers.join(" > ")) };
    format!(
        "{}, stake {}: record {} {verb}, {way}",
        run.members.owner(voter.author),
        run.members.stake(voter.author),
        last.number
    )
}

/// What a locator that is not final lacks, and whom to ring.
fn missing(run: &Run, account: &Account, manner: &Manner, out: &mut dyn Write) -> Result<(), Fault> {
    writeln!(out)?;
    if account.stage() == Stage::Nothing {
        writeln!(out, "No stored block shares it, votes for it or rejects it.")?;
        return Ok(());
    }
    writeln!(out, "Votes:")?;
    let most = if manner.all { usize::MAX } else { MOST_VOTES };
    for (block, voice) in account.voices.iter().take(most) {
        let block = &run.blocks[*block];
        let (owner, stake) = (run.members.owner(block.owner), run.members.stake(block.owner));
        writeln!(out, "  {owner}, stake {stake}: record {} {}", block.number, voice.verb())?;
    }
    if account.voices.len() > most {
        writeln!(out, "  and {} more blocks speak of it; --all shows them", account.voices.len() - most)?;
    }
    for line in lacking(run, account)? {
        writeln!(out, "{line}")?;
    }
    writeln!(out, "{}", ring_line(run, account, manner)?)?;
    Ok(())
}

/// How far the votes have come.
pub fn lacking(run: &Run, account: &Account) -> Result<Vec<String>, Fault> {
    let mut lines = Vec::new();
    if let Some(item) = &account.pending {
        let counted = run.members.tally(item.voters.iter());
        lines.push(format!("Counted so far: {}.", run.members.sum(&counted)));
        let uncounted = account.uncounted();
        if !uncounted.is_empty() {
            let votes = if uncounted.len() == 1 { "vote of" } else { "votes of" };
            lines.push(format!(
                "The {votes} {} came before the share was stored: not counted above, and good for certificates.",
                run.members.owners(uncounted)
            ));
        }
    } else if let Some(number) = account.processed_by {
        lines.push(format!("Record {number} brought the votes to quorum."));
    }
    let standing = if run.withdrawing() { "Votes that stand" } else { "By their owners" };
    if run.withdrawing()
        || account.pending.is_none_or(|item| item.voters != account.voted.owners) && account.processed_by.is_none()
    {
        lines.push(format!("{standing}: {}.", run.members.sum(&account.voted)));
    }
    if account.stage() == Stage::Certificates {
        let less = if run.withdrawing() { ", less those who reject there" } else { "" };
        lines.push(format!("An unmarked block certifies that has quorum votes at or below it{less}."));
    }
    Ok(lines)
}

/// Whom to ring.
pub fn ring_line(run: &Run, account: &Account, manner: &Manner) -> Result<String, Fault> {
    let reach = match (manner.reach_given, &manner.nobody[..]) {
        (false, _) => String::new(),
        (true, []) => " of those who can be reached".into(),
        (true, nobody) => {
            let numbers: Vec<String> = nobody.iter().map(u64::to_string).collect();
            let are = if nobody.len() == 1 { "is no owner" } else { "are no owners" };
            format!(" of those who can be reached ({} {are})", numbers.join(", "))
        }
    };
    let (what, brings) = match account.stage() {
        Stage::Certificates => (" for such a block", "its certificates"),
        _ => ("", "it"),
    };
    Ok(match account.fewest(run, manner.reachable)? {
        Some((owners, _)) if owners.is_empty() => "Nobody has to be rung.".into(),
        Some((owners, stake)) => {
            format!("Ring{what}{reach}: {} stake {stake}, the fewest who bring {brings} to quorum.", run.members.hold(owners))
        }
        None => format!("Nobody{reach} can bring {brings} to quorum: all together hold too little."),
    })
}

/// The facts for a script.
pub fn json(run: &Run, locator: &Locator, manner: &Manner) -> Result<Json, Fault> {
    let account = Account::new(run, locator)?;
    let mut certificates = Vec::new();
    if let Some(slip) = run.slip(locator)?.filter(|_| account.is_final) {
        for certifier in slip.certifiers() {
            let Some(from) = run.place(&certifier.block) else { continue };
            let voter = |voter: &Voter| {
                let way: Json = run.walk(from, &voter.path).iter().map(|block| run.blocks[*block].number).collect();
                object([("owner", voter.author.into()), ("way", way)])
            };
            let voters = certifier.voters.iter().map(voter).collect();
            certificates.push(object([("record", run.blocks[from].number.into()), ("voters", voters)]));
        }
    }
    Ok(object([("change", account.json(run, manner.reachable)?), ("certificates", Json::List(certificates))]))
}
