//! The node of the examples as it is called: stopped at any moment, on a full disk, in folders that it cannot write or that are damaged.

mod common;

use std::collections::{BTreeMap, BTreeSet};
use std::fs;
use std::io::{BufRead, BufReader, Write};
use std::os::unix::fs::MetadataExt;
use std::path::{Path, PathBuf};
use std::process::{Child, Command, Output, Stdio};
use std::thread::sleep;
use std::time::Duration;

use common::{Chance, builder, chain, example, folder, graph, input, stakes_file};
use lomkhvide::{AuthorityIndex, Committee, Engine, Listed, Parts, Reading, Record};

const OWNERS: u64 = 7;
const ROUNDS: u64 = 14;
const KILLS: u64 = 200;

fn command(words: &[&Path]) -> Command {
    let mut command = Command::new(example("node"));
    command.args(words).stdin(Stdio::null()).stdout(Stdio::piped()).stderr(Stdio::piped());
    command
}

fn run(words: &[&Path]) -> Output {
    command(words).output().unwrap()
}

fn told(output: &Output) -> String {
    String::from_utf8_lossy(&output.stderr).into_owned()
}

/// The first numbers of the lines that begin with a word.
fn numbers(output: &Output, word: &str) -> Vec<usize> {
    let text = String::from_utf8_lossy(&output.stdout);
    let number = |line: &str| line.strip_prefix(word)?.split_whitespace().next()?.parse().ok();
    text.lines().filter_map(number).collect()
}

fn lines(output: &Output, word: &str) -> Vec<String> {
    String::from_utf8_lossy(&output.stdout).lines().filter(|line| line.starts_with(word)).map(String::from).collect()
}

/// Every file of a folder.
fn contents(folder: &Path) -> BTreeMap<PathBuf, Vec<u8>> {
    let paths = fs::read_dir(folder).unwrap().map(|entry| entry.unwrap().path());
    paths.map(|path| (path.clone(), fs::read(&path).unwrap())).collect()
}

/// A folder of records, by their numbers.
fn given(name: &str, records: &[Record]) -> PathBuf {
    let given = folder(name);
    for (i, record) in records.iter().enumerate() {
        fs::write(given.join(format!("{:04}", i + 1)), record.as_bytes()).unwrap();
    }
    given
}

fn shuffled(mut records: Vec<Record>, chance: &mut Chance) -> Vec<Record> {
    for i in (1..records.len()).rev() {
        records.swap(i, chance.below(i as u64 + 1) as usize);
    }
    records
}

/// What an engine that was never stopped lists.
fn finals_of(records: &[Record]) -> Vec<String> {
    let mut engine = Engine::new(Committee::load(&[]).unwrap(), 1 << 20);
    records.iter().for_each(|record| drop(engine.feed(record).unwrap()));
    let line = |stretch: lomkhvide::Stretch| {
        format!("final {}..{} by {} blocks, stake {}", stretch.first, stretch.end, stretch.blocks, stretch.stake)
    };
    engine.finals(Listed::Ordinary, Reading::Old).map(|stretch| line(stretch.unwrap())).collect()
}

/// When a node that is at work is killed.
enum Moment {
    After(Duration),
    /// As soon as a file is another, or there: after the rename to `current` and before the one to `waiting`, say.
    Changed(&'static str),
}

fn killed(state: &Path, records: &Path, moment: &Moment) -> Output {
    let mark = |name: &str| fs::metadata(state.join(name)).map(|file| (file.ino(), file.mtime_nsec())).ok();
    let before = if let Moment::Changed(name) = moment { mark(name) } else { None };
    let mut child = command(&[state, records]).spawn().unwrap();
    match moment {
        Moment::After(time) => sleep(*time),
        Moment::Changed(name) => {
            while mark(name) == before && child.try_wait().unwrap().is_none() {
                std::hint::spin_loop();
            }
        }
    }
    child.kill().unwrap();
    child.wait_with_output().unwrap()
}

/// The records that a folder holds, stored or waiting.
fn held(state: &Path) -> BTreeSet<Vec<u8>> {
    let mut held = BTreeSet::new();
    let current = fs::read_to_string(state.join("current")).unwrap_or("0".to_string());
    let number = current.lines().next().unwrap();
    if number != "0" {
        let read = |part: &str| fs::read(state.join(format!("{part}.{number}"))).unwrap();
        let (store, table) = (read("store"), read("table"));
        let parts = Parts { store: &store, table: &table, index: None };
        let engine = Engine::open(Committee::load(&[]).unwrap(), 1 << 20, parts).unwrap();
        held.extend(engine.records().map(|(_, record)| record.as_bytes().to_vec()));
    }
    let waiting = fs::read(state.join("waiting")).unwrap_or_default();
    let mut rest = waiting.get(8..).unwrap_or_default();
    while let Some((length, after)) = rest.split_first_chunk() {
        let (record, after) = after.split_at(u32::from_le_bytes(*length) as usize);
        held.insert(record.to_vec());
        rest = after;
    }
    held
}

/// After each kill all that was reported is there, stored or waiting, and all that was there before.
#[test]
fn killed_at_random_moments() {
    let mut chance = Chance(1);
    let records = graph(OWNERS, ROUNDS);
    let (state, none) = (folder("node-state"), folder("node-none"));
    let names = ["current", "current.new", "waiting", "waiting.new"];
    let (mut before, mut at_work, mut waited) = (BTreeSet::new(), 0, 0);
    for kill in 0..KILLS {
        // Some do not come this time, so that others wait for them.
        let some = records.iter().filter(|_| chance.below(6) > 0).cloned().collect();
        let given = given("node-records", &shuffled(some, &mut chance));
        let moment = match kill % 2 {
            0 => Moment::After(Duration::from_micros(500 + chance.below(16_000))),
            _ => Moment::Changed(names[chance.below(4) as usize]),
        };
        let output = killed(&state, &given, &moment);
        at_work += !output.status.success() as u64;
        let after = held(&state);
        assert!(before.is_subset(&after), "kill {kill}: {} records were there, and {} are", before.len(), after.len());
        if let Some(line) = lines(&output, "kept").last() {
            let words: Vec<usize> = line.split_whitespace().filter_map(|word| word.parse().ok()).collect();
            assert!(after.len() >= words[0] + words[words.len() - 1], "kill {kill}: {line}, and {} are there", after.len());
        }
        let restarted = run(&[&state, &none]);
        assert!(restarted.status.success(), "restart {kill}: {}", told(&restarted));
        before = held(&state);
        assert!(after.is_subset(&before), "restart {kill}");
        waited += (before.len() > numbers(&restarted, "opened")[0]) as u64;
        if kill % 8 == 7 {
            // begins anew, so that kills meet a node with much to do
            fs::remove_dir_all(&state).unwrap();
            fs::create_dir(&state).unwrap();
            before = BTreeSet::new();
        }
    }
    let output = run(&[&state, &given("node-records", &records)]);
    assert!(output.status.success());
    assert_eq!(numbers(&output, "kept").last(), Some(&records.len()));
    assert_eq!(lines(&output, "final"), finals_of(&records));
    println!("{KILLS} kills, {at_work} of a node at work; {waited} times records waited");
    assert!(at_work > KILLS / 4 && waited > KILLS / 4, "{at_work} and {waited} of {KILLS}");
}

/// Killed in front of each rename and each removal in turn, where there is strace to do it.
#[test]
fn killed_between_two_renames() {
    if !Command::new("strace").args(["-qq", "-o", "/dev/null", "true"]).status().is_ok_and(|status| status.success()) {
        println!("no strace here: the kill in front of each rename was left out");
        return;
    }
    let records = graph(OWNERS, 6);
    let soon: Vec<Record> = records.iter().filter(|record| record.author() != AuthorityIndex(2)).cloned().collect();
    let (soon, all, none) = (given("node-soon", &soon), given("node-all", &records), folder("node-between-none"));
    let state = folder("node-between");
    assert!(run(&[&state, &soon]).status.success());
    let began = contents(&state);
    // The first rename is that of `current`; the old files are removed, and `waiting` is renamed.
    let mut opened = Vec::new();
    for (call, times) in [("rename", 2), ("unlink", 2)] {
        for time in 1..=times {
            fs::remove_dir_all(&state).unwrap();
            fs::create_dir(&state).unwrap();
            began.iter().for_each(|(path, bytes)| fs::write(path, bytes).unwrap());
            let inject = format!("inject={call}:signal=SIGKILL:when={time}");
            let strace = ["-f", "-qq", "-o", "/dev/null", "-e", &format!("trace={call}"), "-e", &inject];
            let output = Command::new("strace").args(strace).arg(example("node")).args([&state, &all]).output().unwrap();
            assert!(!output.status.success(), "{call} {time}");
            let restarted = run(&[&state, &none]);
            assert!(restarted.status.success(), "{call} {time}: {}", told(&restarted));
            opened.push(numbers(&restarted, "opened")[0]);
            let whole = run(&[&state, &all]);
            assert_eq!(lines(&whole, "final"), finals_of(&records), "{call} {time}");
        }
    }
    assert_eq!(opened, [6, 42, 42, 42], "the new state counts from the first rename on");
}

/// A node that reads a stream that stays open.
struct Live {
    child: Child,
    lines: BufReader<std::process::ChildStdout>,
}

impl Live {
    fn start(state: &Path) -> Live {
        let mut child = command(&[state]).stdin(Stdio::piped()).spawn().unwrap();
        let lines = BufReader::new(child.stdout.take().unwrap());
        let mut live = Live { child, lines };
        live.until("opened");
        live
    }

    fn send(&mut self, records: &[Record]) {
        self.child.stdin.as_mut().unwrap().write_all(&input(0, records)[1..]).unwrap();
    }

    /// The next line that begins so.
    fn until(&mut self, word: &str) -> String {
        let mut line = String::new();
        while !line.starts_with(word) {
            line.clear();
            assert!(self.lines.read_line(&mut line).unwrap() > 0, "the node ended before '{word}'");
        }
        line.trim_end().to_string()
    }

    fn kill(mut self) {
        self.child.kill().unwrap();
        self.child.wait().unwrap();
    }
}

/// On a stream that stays open a record that waits is kept, and stored as soon as its include is.
#[test]
fn waiting_on_a_live_stream() {
    let records = graph(OWNERS, 3);
    let state = folder("node-live");
    let mut live = Live::start(&state);
    live.send(&records[14..15]);
    assert_eq!(live.until("kept"), "kept 0 blocks: 1 read, 0 stored, 0 had before, 0 refused, 1 waiting");
    live.send(&records[14..15]);
    live.send(&records[..7]);
    live.until("kept 7");
    live.kill();
    let mut live = Live::start(&state);
    live.send(&records[7..13]);
    assert!(live.until("kept 13").ends_with(" 1 waiting"));
    live.send(&records[13..14]);
    assert_eq!(live.until("kept 15"), "kept 15 blocks: 7 read, 8 stored, 0 had before, 0 refused, 0 waiting");
    live.kill();
    assert_eq!(numbers(&run(&[&state, &folder("node-live-none")]), "opened"), [15]);
}

/// Records from standard input, in an order in which includes come late.
#[test]
fn from_standard_input() {
    let mut records = graph(OWNERS, 4);
    let expected = finals_of(&records);
    records.reverse();
    let state = folder("node-stream");
    let output = streamed(&state, &input(0, &records)[1..]);
    assert!(output.status.success());
    assert_eq!(lines(&output, "final"), expected);
    assert_eq!(lines(&output, "wanted"), [""; 0]);
}

fn streamed(state: &Path, stream: &[u8]) -> Output {
    let mut child = command(&[state]).stdin(Stdio::piped()).spawn().unwrap();
    // A node that has stopped does not read on.
    let _ = child.stdin.take().unwrap().write_all(stream);
    child.wait_with_output().unwrap()
}

/// What came before a stream was cut is kept, and then the cut is told with the record's number.
#[test]
fn cut_streams() {
    let records = graph(OWNERS, 1);
    let stream = input(0, &records[..4]);
    let whole = stream.len() - 1;
    let last = 4 + records[3].as_bytes().len();
    for (left_out, what) in [(1, "cut inside a record"), (last - 4, "cut inside a record"), (last - 1, "cut inside a record")] {
        let state = folder("node-cut");
        let output = streamed(&state, &stream[1..1 + whole - left_out]);
        assert_eq!(output.status.code(), Some(1));
        assert!(told(&output).contains("record 4: standard input") && told(&output).contains(what), "{}", told(&output));
        assert_eq!(numbers(&output, "kept").last(), Some(&3));
        assert_eq!(numbers(&run(&[&state, &folder("node-cut-none")]), "opened"), [3]);
    }
    let state = folder("node-long");
    let output = streamed(&state, &[&stream[1..1 + whole], &[255; 40]].concat());
    assert_eq!(output.status.code(), Some(1));
    assert!(told(&output).contains("record 5: standard input: a record of 4294967295 bytes"), "{}", told(&output));
    assert_eq!(numbers(&run(&[&state, &folder("node-cut-none")]), "opened"), [4]);
}

/// A refusal has the number of its record, also where that waited, and the file that it came from.
#[test]
fn numbers_of_records() {
    let records = graph(OWNERS, 2);
    // Waits for a block of record 9, and then has more offsets than there is room for events.
    let mut long = builder(2, 0, [9; 32]);
    for record in &records[7..14] {
        long = long.include(record.reference());
    }
    let long = long.range(records[7].reference().at(0), 100_000).finish().unwrap();
    let mut stream = vec![long.clone()];
    stream.extend(records.iter().cloned());
    let output = streamed(&folder("node-numbers"), &input(0, &stream)[1..]);
    assert!(output.status.success());
    let refused: Vec<String> = told(&output).lines().filter(|line| line.contains("refused")).map(String::from).collect();
    assert_eq!(refused, ["record 1 is refused: the slice for events is too short (15)"]);
    let given = given("node-numbers-given", &stream);
    fs::write(given.join("0005"), b"noise").unwrap();
    let output = run(&[&folder("node-numbers"), &given]);
    let name = format!("record 5 ({})", given.join("0005").display());
    assert!(told(&output).contains(&format!("{name} is refused: the record, locator or reference is malformed (20)")));
}

/// Of too many records that wait the oldest are refused, by their numbers.
#[test]
fn too_many_wait() {
    let mut records = Vec::new();
    for i in 0..1030u32 {
        let mut digest = [7; 32];
        digest[..4].copy_from_slice(&i.to_le_bytes());
        let mut record = builder(1, 0, digest);
        for author in 0..OWNERS {
            record = record.include(builder(0, author, digest).finish().unwrap().reference());
        }
        records.push(record.finish().unwrap());
    }
    let state = folder("node-many");
    let output = streamed(&state, &input(0, &records)[1..]);
    assert!(output.status.success());
    for number in 1..=6 {
        let line = format!(
            "record {number} is refused: of more than 1024 records, or 16777216 bytes, that wait it has waited longest"
        );
        assert!(told(&output).contains(&line), "{}", told(&output));
    }
    assert!(!told(&output).contains("record 7 "));
    assert_eq!(lines(&output, "kept").last().unwrap().split(", ").last(), Some("1024 waiting"));
    let again = run(&[&state, &folder("node-many-none")]);
    assert_eq!(lines(&again, "opened"), ["opened 0 blocks, 1024 waiting"]);
    assert_eq!(lines(&again, "wanted").len(), 1024);
}

/// Without a `current` that fits, a state is not taken for nothing: an error names its files, and none is changed.
#[test]
fn state_files_without_current() {
    let (state, none) = (folder("node-current"), folder("node-current-none"));
    assert!(run(&[&state, &given("node-current-given", &graph(OWNERS, 2))]).status.success());
    let files = contents(&state);
    let current = state.join("current");
    let kept = fs::read(&current).unwrap();
    let mut tries: Vec<Option<Vec<u8>>> = vec![None, Some(vec![]), Some(b"2\n".to_vec()), Some(b"x\n".to_vec())];
    for bit in 0..8 * kept.len() {
        let mut flipped = kept.clone();
        flipped[bit / 8] ^= 1 << (bit % 8);
        tries.push(Some(flipped));
    }
    for tried in tries.iter().step_by(5).chain(&tries[..24]) {
        match tried {
            Some(bytes) => fs::write(&current, bytes).unwrap(),
            None => fs::remove_file(&current).unwrap(),
        }
        let before = contents(&state);
        let output = run(&[&state, &none]);
        assert_eq!(output.status.code(), Some(1), "{tried:?}");
        for part in ["store.1", "table.1"] {
            assert!(told(&output).contains(&state.join(part).display().to_string()), "{tried:?}: {}", told(&output));
        }
        assert_eq!(contents(&state), before, "{tried:?}");
    }
    fs::write(&current, &kept).unwrap();
    // Files of a later state than the one that counts are not this node's leavings.
    fs::write(state.join("store.3"), b"").unwrap();
    let output = run(&[&state, &none]);
    assert!(output.status.code() == Some(1) && told(&output).contains("store.3"), "{}", told(&output));
    fs::remove_file(state.join("store.3")).unwrap();
    // What a stopped node left is no fault, and stays until a state was kept.
    fs::write(state.join("store.2"), b"half").unwrap();
    let output = run(&[&state, &none]);
    assert!(output.status.success() && numbers(&output, "opened") == [14], "{}", told(&output));
    assert_eq!(fs::read(state.join("store.2")).unwrap(), b"half");
    fs::remove_file(state.join("store.2")).unwrap();
    assert_eq!(contents(&state), files);
}

/// Files that are not a node's are refused by name, and nothing is written. This `current` is as an earlier node wrote it.
#[test]
fn broken_files() {
    let (state, none) = (folder("node-broken"), folder("node-broken-none"));
    for (name, bytes, why) in [("store.1", vec![7; 16], "(10)"), ("table.1", vec![7; 8], "(11)")] {
        fs::write(state.join("current"), "1\n").unwrap();
        let mut fresh = [0; 16];
        fresh[4] = 16;
        fs::write(state.join("store.1"), fresh).unwrap();
        fs::write(state.join("table.1"), [0; 8]).unwrap();
        fs::write(state.join(name), &bytes).unwrap();
        let output = run(&[&state, &none]);
        assert_eq!(output.status.code(), Some(1));
        assert!(told(&output).contains(why) && told(&output).contains(name), "{}", told(&output));
        assert_eq!(fs::read(state.join(name)).unwrap(), bytes);
    }
}

/// Two nodes do not work in one folder.
#[test]
fn two_nodes() {
    let state = folder("node-two");
    let records = graph(OWNERS, 2);
    let mut live = Live::start(&state);
    live.send(&records[..7]);
    live.until("kept 7");
    let before = contents(&state);
    for words in [vec![&*state, &*given("node-two-given", &records)], vec![Path::new("--list"), &*state]] {
        let output = run(&words);
        assert_eq!(output.status.code(), Some(1));
        assert!(told(&output).contains(&format!("{}: another node holds this folder", state.join("lock").display())));
    }
    assert_eq!(contents(&state), before);
    live.send(&records[7..]);
    live.until("kept 14");
    live.kill();
    assert_eq!(numbers(&run(&[&state, &folder("node-two-none")]), "opened"), [14], "a killed node holds nothing");
}

/// Errors name their file.
#[test]
fn errors_name_the_file() {
    let (state, none) = (folder("node-errors"), folder("node-errors-none"));
    let missing = none.join("missing");
    assert!(told(&run(&[&state, &missing])).contains(&format!("{}: ", missing.display())));
    let given = given("node-errors-given", &graph(OWNERS, 1));
    fs::create_dir(given.join("0004-folder")).unwrap();
    let output = run(&[&state, &given]);
    assert_eq!(output.status.code(), Some(1));
    assert!(told(&output).contains(&format!("record 5: {}: ", given.join("0004-folder").display())), "{}", told(&output));
    assert_eq!(numbers(&output, "kept"), [4], "what came before is kept");
    fs::write(state.join("stakes"), b"\x01").unwrap();
    assert!(
        told(&run(&[&state, &none]))
            .contains(&format!("{}: the file of stakes is broken (56)", state.join("stakes").display()))
    );
    fs::write(state.join("stakes"), stakes_file(&[1, 1, 1, 1, 1, 1, 1])).unwrap();
    let output = run(&[&state, &none]);
    assert!(told(&output).contains("the state was kept under another committee than"), "{}", told(&output));
    let file = none.join("file");
    fs::write(&file, b"").unwrap();
    let output = run(&[&file, &none]);
    assert!(output.status.code() == Some(1) && told(&output).contains(&file.display().to_string()), "{}", told(&output));
}

#[test]
fn help() {
    for word in ["--help", "-h"] {
        let output = run(&[Path::new(word)]);
        assert!(output.status.success() && output.stderr.is_empty());
        assert!(String::from_utf8_lossy(&output.stdout).contains("node STATE [RECORDS]"));
    }
    let state = folder("node-help");
    for words in [vec![], vec!["--nonsense"], vec!["--list"], vec!["--epoch", "a"], vec!["a", "b", "c"]] {
        let output = command(&words.iter().map(Path::new).collect::<Vec<_>>()).current_dir(&state).output().unwrap();
        assert_eq!(output.status.code(), Some(2), "{words:?}");
        assert!(output.stdout.is_empty() && told(&output).contains("--help"));
    }
    assert!(contents(&state).is_empty());
}

/// While the example's own check of digests and signatures stands, the node warns.
#[test]
fn warns_of_what_is_not_checked() {
    let output = run(&[&folder("node-warning"), &folder("node-warning-none")]);
    assert!(told(&output).starts_with("warning: no digest and no signature is checked"), "{}", told(&output));
}

/// Whatever the disk has room for, an error names the file that did not fit, and what was kept before is there.
#[test]
fn full_disk() {
    let records = graph(OWNERS, 8);
    let (state, none, given) = (folder("node-disk"), folder("node-disk-none"), given("node-disk-given", &records));
    let limited = "trap '' XFSZ; ulimit -f $1; shift; exec \"$@\"";
    let (mut kept, mut failed) = (0, 0);
    for kilobytes in 0..200 {
        let mut bash = Command::new("bash");
        bash.args(["-c", limited, "bash", &kilobytes.to_string()]).arg(example("node")).args([&state, &given]);
        let output = bash.output().unwrap();
        if output.status.success() {
            break;
        }
        failed += 1;
        assert_eq!(output.status.code(), Some(1), "{kilobytes} KB: {}", told(&output));
        assert!(told(&output).contains(&format!("node: {}", state.display())), "{kilobytes} KB: {}", told(&output));
        kept = numbers(&output, "kept").last().copied().unwrap_or(kept);
        let restarted = run(&[&state, &none]);
        assert!(restarted.status.success() && numbers(&restarted, "opened")[0] >= kept, "{kilobytes} KB: {}", told(&restarted));
    }
    assert!(failed > 3, "{failed} sizes");
    assert_eq!(lines(&run(&[&state, &given]), "final"), finals_of(&records));
}

/// A small file system of its own, where this may mount one.
struct Mounted(PathBuf);

impl Mounted {
    fn new(name: &str, kilobytes: u64) -> Option<Mounted> {
        let place = folder(name);
        let mut mount = Command::new("mount");
        mount.args(["-t", "tmpfs", "-o", &format!("size={kilobytes}k"), "tmpfs"]).arg(&place).stderr(Stdio::null());
        mount.status().is_ok_and(|status| status.success()).then_some(Mounted(place))
    }

    fn again(&self, how: &str) {
        assert!(Command::new("mount").args(["-o", &format!("remount,{how}")]).arg(&self.0).status().unwrap().success());
    }
}

impl Drop for Mounted {
    fn drop(&mut self) {
        let _ = Command::new("umount").arg("-l").arg(&self.0).status();
    }
}

#[test]
fn full_and_read_only_file_systems() {
    let Some(disk) = Mounted::new("node-mounted", 24) else {
        println!("no file system can be mounted here: full and read-only ones were left out");
        return;
    };
    let records = graph(OWNERS, 12);
    let (none, given) = (folder("node-mounted-none"), given("node-mounted-given", &records));
    let state = disk.0.join("state");
    let output = run(&[&state, &given]);
    assert_eq!(output.status.code(), Some(1), "{}", told(&output));
    assert!(
        told(&output).contains(&format!("{}/", state.display())) && told(&output).contains("No space left"),
        "{}",
        told(&output)
    );
    disk.again("size=4m");
    let output = run(&[&state, &given]);
    assert_eq!(lines(&output, "final"), finals_of(&records), "{}", told(&output));
    disk.again("ro");
    let before = contents(&state);
    let output = run(&[&state, &none]);
    assert_eq!(output.status.code(), Some(1));
    assert!(told(&output).contains(&format!("{}: Read-only file system", state.join("lock").display())), "{}", told(&output));
    assert_eq!(contents(&state), before);
    let listed = run(&[Path::new("--list"), &state]);
    assert!(listed.status.success(), "{}", told(&listed));
    assert_eq!(lines(&listed, "final"), finals_of(&records));
}

/// A folder that the node may not write: nothing is changed, and the file is named. Root may write everywhere, and is nobody for this.
#[test]
fn folder_of_somebody_else() {
    let state = folder("node-foreign");
    assert!(run(&[&state, &given("node-foreign-given", &graph(OWNERS, 3))]).status.success());
    let before = contents(&state);
    let mut mode = fs::metadata(&state).unwrap().permissions();
    std::os::unix::fs::PermissionsExt::set_mode(&mut mode, 0o555);
    fs::set_permissions(&state, mode.clone()).unwrap();
    for path in before.keys() {
        let mut mode = fs::metadata(path).unwrap().permissions();
        mode.set_readonly(true);
        fs::set_permissions(path, mode).unwrap();
    }
    // The program and the folders above may not be nobody's to reach: both are tried from a copy.
    let place = std::env::temp_dir().join(format!("node-foreign-{}", std::process::id()));
    let _ = fs::remove_dir_all(&place);
    fs::create_dir(&place).unwrap();
    fs::copy(example("node"), place.join("node")).unwrap();
    assert!(Command::new("cp").args(["-a"]).args([&state, &place.join("state")]).status().unwrap().success());
    let mut command = Command::new("setpriv");
    command.args(["--reuid=65534", "--regid=65534", "--clear-groups"]).arg(place.join("node")).arg(place.join("state"));
    let output = command.stdin(Stdio::null()).output();
    let after = contents(&place.join("state"));
    fs::remove_dir_all(&place).unwrap();
    std::os::unix::fs::PermissionsExt::set_mode(&mut mode, 0o755);
    fs::set_permissions(&state, mode).unwrap();
    let Some(output) = output.ok().filter(|output| !told(output).starts_with("setpriv")) else {
        println!("the node cannot be run as nobody here: a folder that it may not write was left out");
        return;
    };
    assert_eq!(output.status.code(), Some(1), "{}", told(&output));
    assert!(told(&output).contains("state/lock: Permission denied"), "{}", told(&output));
    assert_eq!(after.values().collect::<Vec<_>>(), before.values().collect::<Vec<_>>());
}

/// A full store is told once, with a status of its own; then the next epoch begins, with what was pending as a list.
#[test]
fn full_store_and_next_epoch() {
    let (state, next) = (folder("node-full"), folder("node-full-next"));
    fs::write(state.join("stakes"), stakes_file(&[2, 1])).unwrap();
    let records = chain(1030);
    let output = streamed(&state, &input(0, &records[..1024])[1..]);
    assert!(output.status.success(), "{}", told(&output));
    assert!(told(&output).contains("the store is nearly full"), "{}", told(&output));
    let output = streamed(&state, &input(0, &records[1020..])[1..]);
    assert_eq!(output.status.code(), Some(3));
    assert_eq!(told(&output).matches("the store is full (13): record 5 and what came after it are not stored").count(), 1);
    assert_eq!(told(&output).matches("full").count(), 1, "{}", told(&output));
    assert!(told(&output).contains("node --epoch OLD NEW"));

    let epoch = run(&[Path::new("--epoch"), &state, &next]);
    assert!(epoch.status.success(), "{}", told(&epoch));
    let finals = lines(&output, "final");
    let listed = run(&[Path::new("--list"), &state]);
    assert!(listed.status.success() && lines(&listed, "final") == finals, "the old one is readable");
    let before = contents(&state);
    let output = streamed(&state, &input(0, &records)[1..]);
    assert_eq!(output.status.code(), Some(1));
    assert!(told(&output).contains("this epoch is closed, and goes on in"), "{}", told(&output));
    assert_eq!(contents(&state), before);

    // The share of the last block has no block above it, so nobody else's vote: it is not final.
    let list = fs::read_to_string(next.join("share-again")).unwrap();
    let share = records[1023].shares().next().unwrap();
    let payload: String = share.1.iter().map(|byte| format!("{byte:02x}")).collect();
    assert_eq!(list, format!("{} {payload}\n", share.0));
    assert_eq!(fs::read(next.join("stakes")).unwrap(), fs::read(state.join("stakes")).unwrap());

    // The old epoch's records are not stored there; new blocks of round 0 are.
    let output = streamed(&next, &input(0, &records[..40])[1..]);
    assert!(told(&output).contains("record 1 is refused: it began an earlier epoch"), "{}", told(&output));
    assert_eq!(lines(&output, "final").len(), 0);
    let new = builder(0, 0, [77; 32]).finish().unwrap();
    let output = streamed(&next, &input(0, &[new])[1..]);
    assert_eq!(numbers(&output, "kept").last(), Some(&1));
    assert_eq!(run(&[Path::new("--epoch"), &state, &next]).status.code(), Some(1), "it is begun already");
    let third = folder("node-full-third");
    let twice = run(&[Path::new("--epoch"), &state, &third]);
    assert!(twice.status.code() == Some(1) && told(&twice).contains("this epoch is closed"), "one epoch goes on in one folder");
    assert!(contents(&third).is_empty());
}

/// An epoch is closed by marks of quorum stake, and not before.
#[test]
fn epochs_are_closed_by_marks() {
    let (state, next) = (folder("node-marks"), folder("node-marks-next"));
    let records = graph(OWNERS, 3);
    let mut last = Vec::new();
    for author in 0..3 {
        let mut record = builder(3, author, [3; 32]).marked();
        for include in &records[14..] {
            record = record.include(include.reference());
        }
        last.push(record.finish().unwrap());
    }
    // Owners 0 and 1 hold 8 of 17; with owner 2 it is 11, and quorum begins at 12.
    let output = streamed(&state, &input(0, &[&records[..], &last[..]].concat())[1..]);
    assert!(output.status.success(), "{}", told(&output));
    let before = contents(&state);
    let epoch = run(&[Path::new("--epoch"), &state, &next]);
    assert_eq!(epoch.status.code(), Some(1));
    assert!(told(&epoch).contains("owners 0, 1, 2 marked one, stake 11; quorum begins at 12"), "{}", told(&epoch));
    assert_eq!((contents(&state), contents(&next).len()), (before, 0));
    let mut record = builder(3, 5, [3; 32]).marked();
    for include in &records[14..] {
        record = record.include(include.reference());
    }
    let waits = builder(9, 0, [9; 32]).include(builder(8, 0, [8; 32]).finish().unwrap().reference());
    let waits =
        (0..OWNERS).fold(waits, |record, owner| record.include(builder(8, owner, [8; 32]).finish().unwrap().reference()));
    streamed(&state, &input(0, &[record.finish().unwrap(), waits.finish().unwrap()])[1..]);
    // One that was stopped before its end is begun by nobody else, and can be run again.
    fs::write(next.join("epoch"), "half").unwrap();
    let output = run(&[&next, &folder("node-marks-none")]);
    assert!(output.status.code() == Some(1) && told(&output).contains("run node --epoch again"), "{}", told(&output));
    let epoch = run(&[Path::new("--epoch"), &state, &next]);
    assert!(epoch.status.success(), "{}", told(&epoch));
    assert_eq!(told(&epoch), "1 records still waited and were never stored: what they share is not on the list\n");
    assert!(run(&[&next, &folder("node-marks-none")]).status.success());
    let missing = folder("node-marks-none").join("nowhere");
    assert_eq!(run(&[Path::new("--epoch"), &missing, &folder("node-marks-other")]).status.code(), Some(1));
    assert!(!missing.exists());
}

/// A node catches up on a thousand records in a fraction of a second of work.
#[test]
fn catching_up() {
    let records = graph(4, 250);
    let state = folder("node-catching-up");
    fs::write(state.join("stakes"), stakes_file(&[1; 4])).unwrap();
    let given = given("node-catching-up-given", &records);
    let timed = "time \"$@\"";
    let output = Command::new("bash").args(["-c", timed, "bash"]).arg(example("node")).args([&state, &given]).output().unwrap();
    assert_eq!(numbers(&output, "kept").last(), Some(&1000), "{}", told(&output));
    let user = told(&output).lines().find_map(|line| line.strip_prefix("user\t0m")?.strip_suffix('s')?.parse::<f64>().ok());
    let user = user.expect("what bash measured");
    println!("1,000 records in {user} s of the processor");
    assert!(user < 1.0, "{user} s");
}
