//! Times the engine beside the Rust on the same graphs, in one run, and prints a table. See docs/PERFORMANCE.md.

mod growth;
mod timing;

use std::fs;
use std::process::{Command, Stdio};
use std::time::{Duration, Instant};

use reference::compare::Memory;
use reference::engine;
use reference::graphs;
use reference::list::List;
use reference::model::lent::STRETCH_BYTES;
use reference::model::record::{number, Block, Locator, Statement};
#[cfg(has_rust)]
use reference::rust::{Prepared, RustSide};
use timing::{high_water, least, pass, time};

const STAKES: [u64; 4] = [1; 4];

fn main() {
    let words: Vec<String> = std::env::args().skip(1).collect();
    match words.first().map(String::as_str) {
        Some("memory") => memory_of(&words[1]),
        Some("loadable") => loadable(),
        Some("index") => {
            feeding_indexed();
            sorted(&graphs::generated(1000), 10_000);
            check_indexes();
            index_growth();
        }
        Some("withdrawing") => withdrawing(),
        Some("votes") => votes(),
        Some("many") => many(),
        Some("growth") => growth::tables(words.get(1).map_or("", String::as_str)),
        Some("growth-cell") => growth::cell(&words[1], &words[2]),
        _ => table(),
    }
}

fn table() {
    println!("| what | engine | Rust | engine to Rust |");
    println!("|---|---|---|---|");
    let course = graphs::course_run();
    for (name, blocks) in
        [("course run", course), ("100 blocks", graphs::generated(100)), ("1,000 blocks", graphs::generated(1000))]
    {
        let memory = fed(&blocks);
        let finals = asked_on(&memory);
        assert_eq!(wide_list(&memory), finals, "the list in bulk is as long as asked on");
        let rust = rust_final(&blocks, finals);
        row(&format!("wide list in bulk, {name} ({finals} final)"), least(|| wide_list(&memory)), rust);
        row(&format!("wide list asked on, {name}"), least(|| asked_on(&memory)), rust);
        let shares = final_list(&memory);
        row(&format!("ordinary list in bulk, {name} ({shares} shares)"), least(|| final_list(&memory)), rust);
        let engine = least(|| fed(&blocks));
        row(&format!("feeding, {name}"), engine, rust_feed(&blocks));
        row(&format!("feeding in one call, {name}"), least(|| fed_at_once(&blocks)), rust_feed(&blocks));
        row(&format!("the same, the Rust with `verify` and its store, {name}"), engine, rust_feed_checked(&blocks));
        let (indexed, index) = fed_indexed(&blocks);
        let wide = wide_list_indexed(&indexed, &index);
        row(
            &format!("wide list in bulk with the index, {name} ({wide} final)"),
            least(|| wide_list_indexed(&indexed, &index)),
            rust,
        );
        row(&format!("ordinary list in bulk with the index, {name}"), least(|| final_list_indexed(&indexed, &index)), rust);
        // Refused right after the index (20).
        let check = least(|| engine::wide_stretches_indexed(&indexed.stakes, &indexed.store, &index, &[0; 3], &mut []));
        row(&format!("of which the check of store and index, {name}"), check, None);
        let mut out = vec![0; 16 << 20];
        let mut first = [0; 56];
        assert_eq!(engine::next_final(&memory.stakes, &memory.store, &[], &mut first), Ok(1));
        let mut slip = || engine::write_slip(&memory.stakes, &memory.store, &first, &mut out).expect("room for the slip");
        let size = slip();
        row(&format!("slip of the first final locator, {name} ({size} bytes)"), least(slip), None);
    }
    loadable();
    feeding_indexed();
    sorted(&graphs::generated(1000), 10_000);
    println!();
    votes();
    withdrawing();
    check(100);
    check(1000);
    check_indexes();
    index_growth();
    longest_listing();
    peak_memory();
}

/// Records fed by single feeds and in one call, in passes over the store that results: a multiply and an add for each byte.
fn many() {
    for count in [250, 500, 1000] {
        let blocks = graphs::generated(count);
        let memory = fed(&blocks);
        let used = number(&memory.store[4..8]) as usize;
        let pass = pass(&memory.store[..used]);
        let (single, once) = (least(|| fed(&blocks)), least(|| fed_at_once(&blocks)));
        println!(
            "{count} records, {used} bytes: single feeds {}, one call {}, {:.0} passes of {}",
            time(single),
            time(once),
            once / pass,
            time(pass)
        );
    }
}

/// The lists of 1,000 blocks with three accepts each, and with ten.
fn votes() {
    let (three, ten) = (fed(&graphs::generated(1000)), fed(&graphs::voting(1000)));
    assert_eq!(wide_list(&three), wide_list(&ten), "the same locators are final");
    for (name, list) in [("wide", wide_list as fn(&Memory) -> u64), ("ordinary", final_list)] {
        let (few, many) = (least(|| list(&three)), least(|| list(&ten)));
        println!(
            "{name} list in bulk, 1,000 blocks with three votes each: {}; with ten {}, {:.2} times as long",
            time(few),
            time(many),
            many / few
        );
    }
}

/// The wide list in both readings, with no rejects and with three in each block: of its first include the share, where owner 3 speaks, else offsets
/// that nobody votes for.
fn withdrawing() {
    for rejects in [0, 1, 3] {
        let mut blocks = graphs::generated(1000);
        for block in &mut blocks {
            let owner = block.reference.author;
            let first = block.includes.first().copied();
            let rejected =
                first.into_iter().flat_map(|block| (0..rejects).map(move |i| (block, if owner == 3 { i } else { i + 5 })));
            block.statements.extend(rejected.map(|(block, offset)| Statement::Reject(Locator::new(block, offset), None)));
        }
        let memory = fed(&blocks);
        let withdrawn = || in_bulk(|after, out| engine::wide_stretches_withdrawing(&memory.stakes, &memory.store, after, out));
        let (old, new) = (least(|| wide_list(&memory)), least(withdrawn));
        println!(
            "wide list in bulk, 1,000 blocks with {rejects} rejects each: {}; where owners may withdraw {}, {:.2} times as long",
            time(old),
            time(new),
            new / old
        );
    }
}

fn row(name: &str, engine: f64, rust: Option<f64>) {
    let ratio = rust.map_or("-".into(), |rust| format!("{:.2}", engine / rust));
    println!("| {name} | {} | {} | {ratio} |", time(engine), rust.map_or("-".into(), time));
}

fn lent(blocks: &[Block]) -> (Memory, Vec<Vec<u8>>) {
    let list = List::roomy(STAKES.to_vec(), blocks.iter().map(Block::encode).collect());
    (Memory::new(&list), list.records)
}

/// Feeds every block to the engine, from fresh.
fn fed(blocks: &[Block]) -> Memory {
    let (mut memory, records) = lent(blocks);
    for record in &records {
        let Memory { stakes, store, table, events } = &mut memory;
        engine::feed(stakes, store, table, events, record).expect("each record is accepted");
    }
    memory
}

/// The same in one call.
fn fed_at_once(blocks: &[Block]) -> Memory {
    let (mut memory, records) = lent(blocks);
    let bytes: Vec<u8> =
        records.iter().flat_map(|record| [&(record.len() as u32).to_le_bytes(), &record[..]].concat()).collect();
    let (mut events, mut outcomes) = (vec![0; 3 * 16 * blocks.len()], vec![0; blocks.len()]);
    let Memory { stakes, store, table, .. } = &mut memory;
    let answer = engine::feed_records(stakes, store, table, &mut events, &mut outcomes, &bytes);
    assert_eq!(answer, Ok(blocks.len() as u64));
    assert!(outcomes.iter().all(|outcome| outcome >> 63 == 0), "each record is accepted");
    memory
}

/// The same with the index beside the store, of ten words for each block and each vote below it, which is enough.
fn fed_indexed(blocks: &[Block]) -> (Memory, Vec<u64>) {
    fed_owners(4, blocks, 1 + 10 * blocks.len() * (blocks.len() + 1))
}

/// The blocks of so many owners fed with an index of so many words.
fn fed_owners(owners: u64, blocks: &[Block], words: usize) -> (Memory, Vec<u64>) {
    let list = List::roomy(vec![1; owners as usize], blocks.iter().map(Block::encode).collect());
    let (mut memory, records) = (Memory::new(&list), list.records);
    let mut index = vec![0; words];
    index[0] = 1;
    for record in &records {
        let Memory { stakes, store, table, events } = &mut memory;
        engine::feed_indexed(stakes, store, table, &mut index, events, record).expect("each record is accepted");
    }
    (memory, index)
}

/// The wide list by its next locator, asked on until none: the number of its locators.
fn asked_on(memory: &Memory) -> u64 {
    let (mut after, mut out, mut count) = (Vec::new(), vec![0; 56], 0);
    while engine::next_wide(&memory.stakes, &memory.store, &after, &mut out) == Ok(1) {
        after = out.clone();
        count += 1;
    }
    count
}

/// The whole ordinary list in bulk: the number of its locators.
fn final_list(memory: &Memory) -> u64 {
    in_bulk(|after, out| engine::final_stretches(&memory.stakes, &memory.store, after, out))
}

/// The whole wide list likewise.
fn wide_list(memory: &Memory) -> u64 {
    in_bulk(|after, out| engine::wide_stretches(&memory.stakes, &memory.store, after, out))
}

/// Both with the index.
fn final_list_indexed(memory: &Memory, index: &[u64]) -> u64 {
    in_bulk(|after, out| engine::final_stretches_indexed(&memory.stakes, &memory.store, index, after, out))
}

fn wide_list_indexed(memory: &Memory, index: &[u64]) -> u64 {
    in_bulk(|after, out| engine::wide_stretches_indexed(&memory.stakes, &memory.store, index, after, out))
}

fn in_bulk(bulk: impl Fn(&[u8], &mut [u8]) -> engine::Answer) -> u64 {
    let mut out = vec![0; 4096 * STRETCH_BYTES];
    let answer = bulk(&[], &mut out).expect("a store in order");
    assert_eq!(answer % 2, 0, "the whole list in one call");
    let offsets = |stretch: &[u8]| number(&stretch[56..64]) - number(&stretch[48..56]);
    out.chunks(STRETCH_BYTES).take(answer as usize / 2).map(offsets).sum()
}

#[cfg(has_rust)]
fn side(blocks: &[Block]) -> RustSide {
    let mut side = RustSide::new(&STAKES).unwrap();
    side.store_all(blocks);
    side
}

#[cfg(has_rust)]
fn rust_final(blocks: &[Block], finals: u64) -> Option<f64> {
    let side = side(blocks);
    assert!(finals == 0 || side.final_count() as u64 == finals, "both find the same number");
    Some(least(|| side.final_count()))
}

#[cfg(has_rust)]
fn rust_feed(blocks: &[Block]) -> Option<f64> {
    let (side, prepared) = (side(blocks), Prepared::new(blocks));
    Some(least(|| prepared.feed(&side)))
}

#[cfg(has_rust)]
fn rust_feed_checked(blocks: &[Block]) -> Option<f64> {
    let (side, prepared) = (side(blocks), Prepared::new(blocks));
    Some(least(|| prepared.feed_checked(&side)))
}

#[cfg(not(has_rust))]
fn rust_final(_blocks: &[Block], _finals: u64) -> Option<f64> {
    None
}

#[cfg(not(has_rust))]
fn rust_feed(_blocks: &[Block]) -> Option<f64> {
    None
}

#[cfg(not(has_rust))]
fn rust_feed_checked(_blocks: &[Block]) -> Option<f64> {
    None
}

/// Feeding with the index, from fresh.
fn feeding_indexed() {
    for (name, blocks) in [
        ("course run", graphs::course_run()),
        ("100 blocks", graphs::generated(100)),
        ("1,000 blocks", graphs::generated(1000)),
    ] {
        let mut words = 0;
        let engine = least(|| words = fed_indexed(&blocks).1[0]);
        row(&format!("feeding with the index, {name} ({words} words)"), engine, None);
    }
}

/// The list of loadable shares, of nearly 100,000.
fn loadable() {
    for (name, among) in [("in a row", false), ("among other statements", true)] {
        let memory = fed(&graphs::shared(1000, among));
        let mut places = vec![0; 2 * 99_600];
        let mut list = || engine::loadable(&memory.stakes, &memory.store, &mut places).expect("room for every share");
        let count = list();
        row(&format!("loadable shares, 1,000 blocks of 100 shares {name} ({count} loadable)"), least(list), None);
    }
}

/// The check of a store of this many blocks, by a question that is refused right after it, beside one pass over its bytes.
fn check(blocks: usize) {
    let memory = fed(&graphs::generated(blocks));
    let used = number(&memory.store[4..8]) as usize;
    let locator = [0; 3];
    let check = least(|| engine::payload_length(&memory.stakes, &memory.store, &locator));
    let pass = pass(&memory.store[..used]);
    println!(
        "check of a store of {blocks} blocks, {used} bytes: {}; one pass of a multiply and add over each byte: {}; ratio {:.2}",
        time(check),
        time(pass),
        check / pass
    );
}

/// A sorted list of as many locators as told, the same number of offsets of each block, answered in one pass with the index.
fn sorted(blocks: &[Block], count: usize) {
    let (memory, index) = fed_indexed(blocks);
    let each = (count / blocks.len()) as u64;
    let of = |block: &Block| (0..each).map(|offset| Locator::new(block.reference, offset)).collect::<Vec<_>>();
    let mut locators: Vec<Locator> = blocks.iter().flat_map(of).collect();
    locators.sort();
    let bytes: Vec<u8> = locators.iter().flat_map(Locator::bytes).collect();
    let mut replies = vec![0; 3 * locators.len()];
    let mut ask = || engine::answer_sorted(&memory.stakes, &memory.store, &index, &bytes, &mut replies).expect("a sorted list");
    let asked = ask();
    row(&format!("{asked} locators in one pass with the index, {} blocks", blocks.len()), least(ask), None);
}

/// The check of the index of each graph.
fn check_indexes() {
    check_index("the course run", fed_indexed(&graphs::course_run()));
    check_index("100 blocks", fed_indexed(&graphs::generated(100)));
    check_index("1,000 blocks", fed_indexed(&graphs::generated(1000)));
}

/// Growth with the index: the check where runs are shared, and where nobody else makes a block's accepts; and feeding the latter singly.
fn index_growth() {
    for owners in [4, 16, 64] {
        let blocks = graphs::scattered(owners, 512 / owners, 0);
        check_index(&format!("{owners} owners, {} blocks", blocks.len()), fed_owners(owners, &blocks, 1 << 22));
    }
    for rounds in [6, 11] {
        let blocks = graphs::scattered(4, rounds, 500);
        let name = format!("{} blocks of 500 accepts that nobody else makes", blocks.len());
        check_index(&name, fed_owners(4, &blocks, 1 << 23));
        println!("feeding {name} singly with the index: {}", time(least(|| fed_owners(4, &blocks, 1 << 23).1[0])));
    }
}

/// The check of the index of some blocks (54), by a list of one byte, which is refused right after it, beside the check of the store and one
/// pass over the words.
fn check_index(name: &str, (memory, index): (Memory, Vec<u64>)) {
    let index = &index[..index[0] as usize];
    let both = least(|| engine::answer_sorted(&memory.stakes, &memory.store, index, &[0], &mut []));
    let store = least(|| engine::payload_length(&memory.stakes, &memory.store, &[0; 3]));
    let pass = least(|| index.iter().fold(0u64, |h, &w| h.wrapping_mul(31).wrapping_add(w)));
    println!(
        "check of the index of {name}, {} words ({:.1} MB): {}, after that of the store, {}; one pass of a multiply and add over each word: {}; ratio {:.2}",
        index.len(),
        index.len() as f64 * 8e-6,
        time(both - store),
        time(store),
        time(pass),
        (both - store) / pass
    );
}

/// The longest `listing`, where the program has been built.
fn longest_listing() {
    let program = concat!(env!("CARGO_MANIFEST_DIR"), "/../crates/listing/out/listing");
    if !fs::exists(program).unwrap_or(false) {
        println!("longest listing: the program is not built (rt run in crates/listing)");
        return;
    }
    let input = concat!(env!("CARGO_MANIFEST_DIR"), "/target/longest.bin");
    let blocks = graphs::longest();
    let list = List::roomy(vec![1], blocks.iter().map(Block::encode).collect());
    fs::write(input, list.to_listing()).unwrap();
    let start = Instant::now();
    let mut child = Command::new(program).stdin(fs::File::open(input).unwrap()).stdout(Stdio::null()).spawn().unwrap();
    let mut peak = None;
    while child.try_wait().unwrap().is_none() {
        peak = high_water(&format!("/proc/{}/status", child.id())).or(peak);
        std::thread::sleep(Duration::from_millis(5));
    }
    println!(
        "longest listing, {} records: {}, peak {} kB",
        blocks.len(),
        time(start.elapsed().as_secs_f64()),
        peak.unwrap_or(0)
    );
}

/// Peak memory of a process that feeds 1,000 blocks and makes the final list on one side, the engine also with the index, and of one that only
/// makes the blocks.
fn peak_memory() {
    let this = std::env::current_exe().unwrap();
    for side in ["none", "engine", "index", "rust"] {
        let out = Command::new(&this).args(["memory", side]).output().unwrap();
        println!("peak memory, 1,000 blocks, {side}: {} kB", String::from_utf8_lossy(&out.stdout).trim());
    }
}

fn memory_of(side: &str) {
    let blocks = graphs::generated(1000);
    match side {
        "engine" => assert!(final_list(&fed(&blocks)) > 0),
        "index" => assert!(final_list(&fed_indexed(&blocks).0) > 0),
        #[cfg(has_rust)]
        "rust" => assert!(rust_once(&blocks) > 0),
        _ => {}
    }
    println!("{}", high_water("/proc/self/status").unwrap_or(0));
}

#[cfg(has_rust)]
fn rust_once(blocks: &[Block]) -> usize {
    let side = side(blocks);
    Prepared::new(blocks).feed(&side) + side.final_count()
}
