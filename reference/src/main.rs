//! The command of the reference runs; see README.md beside.

use std::io::Write;
use std::ops::Range;
use std::process::exit;
use std::time::{Duration, Instant};

use reference::compare::compare;
use reference::indexes::{Apart, Indexed};
use reference::list::List;
use reference::loading::{self, Loaded};
use reference::many::Fed;
use reference::model::mistake::Mistake;
use reference::slips::Told;
use reference::sorted::Asked;
use reference::tally::Tally;
use reference::windows::Swept;
use reference::withdrawing::Withdrawn;
use reference::writing::Written;
use reference::{
    calendars, exhaustive, generate, indexes, many, members, network, program, rings, shrink, sorted, tables, windows,
    withdrawing,
};

fn main() {
    let words: Vec<String> = std::env::args().skip(1).collect();
    let word = |i: usize| words.get(i).map(String::as_str);
    // Those of a run, by their numbers: so many, from the first or from the one that a third word names.
    let these = |count: u64| {
        let first = number(word(3), 0);
        first..first + number(word(1), count)
    };
    match word(0) {
        Some("lists") => lists(these(4000), number(word(2), 1)),
        Some("calendars") => {
            let count = number(word(1), 1000);
            end(count, calendars(0..count, number(word(2), 1)))
        }
        Some("rings") => end(rings::COUNT, rings(0..rings::COUNT)),
        Some("exhaustive") => {
            let first = number(word(2), 0);
            exhaustive(first..first + number(word(1), exhaustive::COUNT - first))
        }
        Some("list") => one(number(word(1), 0), number(word(2), 1)),
        Some("boundary") => boundary(word(1) == Some("exact")),
        Some("listing") => listing(these(1000), number(word(2), 1)),
        Some("slips") => slips(number(word(1), 1000), number(word(2), 1)),
        Some("sorted") => sorted(number(word(1), 2000), number(word(2), 1)),
        Some("writing") => writing(number(word(1), 2000), number(word(2), 1)),
        Some("withdrawing") => withdrawing(number(word(1), 2000), number(word(2), 1)),
        Some("loading") => loading(number(word(1), 1000), number(word(2), 1)),
        Some("many") => many(number(word(1), 1000), number(word(2), 1)),
        Some("indexes") => indexes(number(word(1), 400), number(word(2), 1)),
        Some("network") if word(1) == Some("mistakes") => network_mistakes(),
        Some("network") => network(these(200), number(word(2), 1)),
        Some("windows") => windows(these(20), number(word(2), 1)),
        Some("stakes") => tables(number(word(1), 100_000), number(word(2), 1)),
        Some("model") => model(word(1).expect("a file"), word(2)),
        Some("inputs") => inputs(word(1) == Some("check")),
        Some("stakes-list") => stakes_list(word(1).expect("a file of stakes")),
        #[cfg(has_rust)]
        Some("sample") => sample(word(1).expect("a folder"), word(2) == Some("check")),
        #[cfg(has_rust)]
        Some("departures") => reference::departures::show(),
        _ => {
            eprintln!("see reference/run");
            exit(2);
        }
    }
}

fn number(word: Option<&str>, default: u64) -> u64 {
    word.map_or(default, |word| word.replace('_', "").parse().expect("a number"))
}

/// List n of a run: every fourth is the next of the exhaustive ones, in steps that meet each of them once.
fn list(seed: u64, n: u64) -> List {
    const STEP: u64 = 524_287; // a prime that does not divide their number
    if n % 4 == 3 {
        exhaustive::list((seed.wrapping_add(n / 4) % exhaustive::COUNT) * STEP % exhaustive::COUNT)
    } else {
        generate::timed_list(seed, n)
    }
}

fn sides() {
    if mysticeti::PRESENT {
        println!("the engine, the Rust and the model of 01");
    } else {
        println!("the engine and the model of 01; the Rust's files are not there, so nothing is compared with the Rust");
    }
}

/// Runs lists by their numbers, with a progress line; shows the smallest form of the first that fail.
fn run(these: Range<u64>, list: impl Fn(u64) -> List) -> u64 {
    sides();
    let (start, mut told) = (Instant::now(), Instant::now());
    let (mut tally, mut fed) = (Tally::default(), Fed::default());
    let mut failed = 0;
    for n in these.clone() {
        let list = list(n);
        if let Err(text) = compare(&list, &mut tally).and_then(|()| many::whole(&list, &mut fed)) {
            failed += 1;
            println!("list {n} failed: {text}");
            if failed <= 3 {
                let (list, text) = shrink::smallest(&list, text);
                println!("its smallest form: {text}\n{}", list.describe());
            }
        }
        if told.elapsed() > Duration::from_secs(5) {
            println!("list {n} of {these:?}, {failed} failed, {} s", start.elapsed().as_secs());
            let _ = std::io::stdout().flush();
            told = Instant::now();
        }
    }
    println!("{}", tally.describe());
    println!("{} lists fed once more, in one call", fed.singly);
    println!("{:.1} s", start.elapsed().as_secs_f64());
    failed
}

/// Ends a run: what was run, as `reference/run` tells it, then the line that is counted.
fn end(count: u64, failed: u64) -> ! {
    if let Ok(ran) = std::env::var("REFERENCE_RAN") {
        println!("{ran}");
    }
    println!("{} passed, {failed} failed", count - failed);
    exit((failed > 0) as i32);
}

fn lists(these: Range<u64>, seed: u64) {
    println!("seed {seed}, lists {these:?}");
    let failed = run(these.clone(), |n| list(seed, n));
    let weeks = these.start / 20..these.end / 20;
    let committees = weeks.start.min(rings::COUNT)..weeks.end.min(rings::COUNT);
    let count = these.count() + weeks.clone().count() + committees.clone().count();
    end(count as u64, failed + calendars(weeks, seed) + rings(committees));
}

/// Whom to ring, in these of the small committees: in how many it failed.
fn rings(these: Range<u64>) -> u64 {
    let mut failed = 0;
    for n in these.clone() {
        if let Err(text) = rings::compare(n) {
            failed += 1;
            println!("whom to ring, committee {n}, failed: {text}");
        }
    }
    println!("whom to ring: every set of voters and of owners within reach in {} committees", these.count());
    failed
}

/// Blast calendars, on the engine and the model: how many failed.
fn calendars(these: Range<u64>, seed: u64) -> u64 {
    let mut tally = calendars::Tally::default();
    let mut failed = 0;
    for n in these {
        if let Err(text) = calendars::compare(seed, n, &mut tally) {
            failed += 1;
            println!("calendar {n} of seed {seed} failed: {text}");
        }
    }
    println!("{}", tally.describe());
    failed
}

/// Lists fed by calls of many records.
fn many(count: u64, seed: u64) {
    let mut fed = Fed::default();
    let mut failed = 0;
    for n in 0..count {
        if let Err(text) = many::compare(seed, n, &mut fed) {
            failed += 1;
            println!("list {n} of seed {seed} failed in one call: {text}");
        }
    }
    let tried = many::every(&mut fed).unwrap_or_else(|text| {
        failed += 1;
        println!("the short list failed: {text}");
        1
    });
    let Fed { calls, records, accepted, untold, short, singly, indexed, crowded, unindexed } = fed;
    println!("{calls} calls of {records} records: {accepted} accepted, {untold} refused by 15, {crowded} by 14, {unindexed} by 55; 64 refused {short} calls");
    println!("{singly} lists held to single feeds, {indexed} with the index; {tried} calls of a short list");
    end(count + tried, failed);
}

/// Lists fed with the index.
fn indexes(count: u64, seed: u64) {
    let mut indexed = Indexed::default();
    let mut failed = 0;
    for n in 0..count {
        if let Err(text) = indexes::compare(seed, n, &mut indexed) {
            failed += 1;
            println!("list {n} of seed {seed} failed with the index: {text}");
        }
    }
    let many = [
        (4, 4, 300, Apart::Nothing),
        (4, 3, 1000, Apart::Nothing),
        (4, 12, 2, Apart::OldVote),
        (4, 12, 2, Apart::OldInclude),
        (16, 4, 5, Apart::Nothing),
        (16, 3, 150, Apart::Nothing),
        (16, 6, 2, Apart::OldVote),
        (16, 6, 2, Apart::OldInclude),
        (64, 3, 3, Apart::Nothing),
        (64, 4, 1, Apart::OldInclude),
    ];
    for (owners, rounds, votes, apart) in many {
        if let Err(text) = indexes::compare_many(owners, rounds, votes, apart, &mut indexed) {
            failed += 1;
            println!("{owners} owners, {rounds} rounds, {votes} votes a block, apart {apart:?}, failed with the index: {text}");
        }
    }
    let Indexed { feeds, accepted, disagreeing, short, lists, longest } = indexed;
    println!("{feeds} feeds with the index: {accepted} accepted, {disagreeing} refused by 54, {short} by 55; {lists} lists; the longest index has {longest} words");
    end(count + many.len() as u64, failed);
}

/// Networks of nodes; the smallest form of the first that fail.
fn network(these: Range<u64>, seed: u64) {
    println!("seed {seed}, networks {these:?}");
    let (start, mut told) = (Instant::now(), Instant::now());
    let (mut tally, mut failed) = (network::Tally::default(), 0);
    for n in these.clone() {
        if let Err(failure) = network::run(seed, n, None, &mut tally) {
            failed += 1;
            println!("network {n} of seed {seed} failed: {}", failure.text);
            if failed <= 3 {
                let small = network::smallest(failure, None);
                println!("its smallest form: {}\n{}", small.text, small.script.describe());
            }
        }
        if told.elapsed() > Duration::from_secs(20) {
            println!("network {n} of {these:?}, {failed} failed, {} s", start.elapsed().as_secs());
            let _ = std::io::stdout().flush();
            told = Instant::now();
        }
    }
    println!("{}", tally.describe());
    end(these.count() as u64, failed);
}

/// Stores whose lists take several windows.
fn windows(these: Range<u64>, seed: u64) {
    sides();
    let mut swept = Swept::default();
    let mut failed = 0;
    for n in these.clone() {
        if let Err(text) = windows::compare(seed, n, &mut swept) {
            failed += 1;
            println!("store {n} of seed {seed} failed: {text}");
        }
    }
    let Swept { edges, listed, loadable, questions, small } = swept;
    let [least, most] = edges.unwrap_or_default();
    println!("votes that begin and end at {least} to {most} places; {questions} questions about lists");
    println!("listed locators, wide and ordinary, old reading and the other: {listed:?}; loadable {loadable:?}");
    println!("the model's lists beside its single questions on {small} small stores");
    end(these.count() as u64, failed);
}

/// Whether the networks find a model that makes one of the course's mistakes, as they would find an engine that does.
fn network_mistakes() {
    let mistakes =
        [Mistake::HeadsForStake, Mistake::OwnerTwice, Mistake::MarkedBlock, Mistake::ShareOffsets, Mistake::EmptyRange];
    let mut failed = 0;
    for mistake in mistakes {
        let found = (0..200).find_map(|n| {
            let failure = network::run(1, n, Some(mistake), &mut network::Tally::default()).err()?;
            Some((n, network::smallest(failure, Some(mistake))))
        });
        match found {
            Some((n, small)) => println!(
                "{mistake:?}: found by network {n}; its smallest form has {} steps and {} records",
                small.script.steps.len(),
                small.script.records.len()
            ),
            None => {
                failed += 1;
                println!("{mistake:?}: not found by 200 networks");
            }
        }
    }
    end(mistakes.len() as u64, failed);
}

/// Sorted lists of locators answered with the index.
fn sorted(count: u64, seed: u64) {
    sides();
    let mut asked = Asked::default();
    let mut failed = 0;
    for n in 0..count {
        if let Err(text) = sorted::compare(seed, n, &mut asked) {
            failed += 1;
            println!("list {n} of seed {seed} failed: {text}");
        }
    }
    let Asked { lists, locators, finals, refused } = asked;
    println!("{lists} lists of {locators} locators, {finals} final; refused with 54, 62, 63: {refused:?}");
    end(count, failed);
}

/// Graphs rich in rejects, with the questions of the second reading.
fn withdrawing(count: u64, seed: u64) {
    sides();
    let mut withdrawn = Withdrawn::default();
    let mut failed = 0;
    for n in 0..count {
        if let Err(text) = withdrawing::compare(seed, n, &mut withdrawn) {
            failed += 1;
            println!("graph {n} of seed {seed} failed: {text}");
        }
    }
    let Withdrawn { questions, both, old_alone, listed, shares } = withdrawn;
    println!("{questions} questions; {both} final in both readings, {old_alone} in the old one alone");
    println!("{listed} locators on the wide lists of the second reading, {shares} on the ordinary ones");
    end(count, failed);
}

/// Graphs in which shares need others, with the questions about loadable ones.
fn loading(count: u64, seed: u64) {
    sides();
    let mut loaded = Loaded::default();
    let mut failed = 0;
    for n in 0..count {
        if let Err(text) = loading::compare(seed, n, &mut loaded) {
            failed += 1;
            println!("graph {n} of seed {seed} failed: {text}");
        }
    }
    let Loaded { shares, loadable, following, withdrawn, damaged } = loaded;
    println!("in both readings {shares} stored shares, {loadable} loadable, {following} of them after another; {damaged} damaged stores");
    println!("{withdrawn} loadable in the old reading alone");
    end(count, failed);
}

/// These of the exhaustive lists.
fn exhaustive(these: Range<u64>) {
    end(these.clone().count() as u64, run(these, exhaustive::list));
}

/// Writes the fixed sample, or checks that it is what the Rust's answers make.
#[cfg(has_rust)]
fn sample(folder: &str, check: bool) {
    match reference::sample::write(folder.as_ref(), check) {
        Ok(count) => println!("{count} inputs"),
        Err(text) => {
            println!("{text}");
            exit(1);
        }
    }
}

/// Every length of every slice. `exact`: for a checker of memory, which sees what canaries cannot.
fn boundary(exact: bool) {
    sides();
    let outcome = reference::boundary::run(exact).and_then(|calls| match exact {
        true => Ok(calls),
        false => reference::boundary::longest_store().map(|_| calls),
    });
    match outcome {
        Ok(calls) => end(calls, 0),
        Err(text) => {
            println!("{text}");
            end(1, 1);
        }
    }
}

/// The program `listing` on generated inputs.
fn listing(these: Range<u64>, seed: u64) {
    if !program::is_there() {
        println!("the program is not built (rt run in crates/listing)");
        end(1, 1);
    }
    println!("seed {seed}, inputs {these:?}");
    let mut failed = 0;
    let answers = program::answers();
    let fixed = answers.len() as u64;
    for text in answers.into_iter().filter_map(Result::err) {
        failed += 1;
        println!("{text}");
    }
    for n in these.clone() {
        let (input, file) = program::input(seed, n);
        if let Err(text) = program::run(&input, file.as_deref()) {
            failed += 1;
            println!("input {n} of seed {seed}: {text}");
        }
    }
    end(fixed + these.count() as u64, failed);
}

/// Records of our own, written and fed.
fn writing(count: u64, seed: u64) {
    sides();
    let mut written = Default::default();
    let mut failed = 0;
    for n in 0..count {
        if let Err(text) = reference::writing::run(seed, n, &mut written) {
            failed += 1;
            println!("run {n} of seed {seed}: {text}");
        }
    }
    let Written { records, ranges, malformed, short, fed } = written;
    println!(
        "records written {records}, with {ranges} joined ranges; refused 51: {malformed}, 50: {short}; written and fed {fed}"
    );
    end(count, failed);
}

/// Slips for the station, of both readings: whole, damaged, made up and carried.
fn slips(count: u64, seed: u64) {
    println!("seed {seed}");
    let mut told = Default::default();
    let mut failed = 0;
    for n in 0..count {
        if let Err(text) = reference::slips::run(seed, n, &mut told) {
            failed += 1;
            println!("run {n} of seed {seed}: {text}");
        }
    }
    let Told { slips, accepted, refused, left_out, carried } = told;
    println!(
        "slips {}, of the new reading {}; questions accepted {accepted}, refused 52: {}, 53: {}, 61: {}; records left out {left_out}; slips carried {carried}",
        slips[0], slips[1], refused[0], refused[1], refused[2]
    );
    end(count, failed);
}

/// Generated files of stakes, whole and damaged.
fn tables(count: u64, seed: u64) {
    println!("seed {seed}");
    let (mut met, mut failed) = (Default::default(), 0);
    for n in 0..count {
        if let Err(text) = tables::compare(&generate::stakes_file::file(seed, n), &mut met) {
            failed += 1;
            println!("file {n} failed: {text}");
        }
    }
    println!("{}", tables::describe(&met));
    end(count, failed);
}

/// What `listing` prints for an input, and a file of stakes, by the model.
fn model(input: &str, stakes: Option<&str>) {
    let input = std::fs::read(input).expect("the input");
    let stakes = stakes.map_or(vec![], |file| std::fs::read(file).expect("the file of stakes"));
    print!("{}", reference::model::listing::listing(&input, &stakes));
}

/// The members of a file of stakes, as a list.
fn stakes_list(file: &str) {
    match members::to_list(&std::fs::read(file).expect("the file of stakes")) {
        Ok(list) => print!("{list}"),
        Err(text) => fail(&text),
    }
}

fn fail(text: &str) -> ! {
    eprintln!("{text}");
    exit(1);
}

/// Writes the inputs that are checked in, or checks them; and checks the tables of the course page.
fn inputs(check: bool) {
    let outcomes = reference::inputs::run(check);
    let failed = outcomes.iter().filter_map(|outcome| outcome.as_ref().err());
    failed.clone().for_each(|text| println!("{text}"));
    end(outcomes.len() as u64, failed.count() as u64);
}

fn one(n: u64, seed: u64) {
    let list = list(seed, n);
    println!("{}", list.describe());
    let mut tally = Tally::default();
    let outcome = compare(&list, &mut tally);
    println!("{}\n{outcome:?}", tally.describe());
    exit(outcome.is_err() as i32);
}
