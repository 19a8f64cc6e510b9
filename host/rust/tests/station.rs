//! The station of the examples: what it loads, and what it does not.

mod common;

use std::fs;
use std::path::{Path, PathBuf};
use std::process::{Command, Output, Stdio};

use common::{builder, example, folder, graph, stakes_file};
use lomkhvide::{Committee, Engine, Locator, Reading, Record, Reference, Refusal, Slip, Stake};

/// Monday, 0:00, of some week.
const MONDAY: u64 = 345_600 + 2_000 * 604_800;

fn engine(records: &[Record]) -> Engine {
    let mut engine = Engine::new(Committee::new(&[Stake(1); 4]).unwrap(), 1 << 20);
    records.iter().for_each(|record| drop(engine.feed(record).unwrap()));
    engine
}

fn digest(number: u8) -> [u8; 32] {
    let mut digest = [0; 32];
    digest[3] = number;
    digest
}

/// A program in round 1, a gain table that needs it in round 2, and everybody's votes for both in round 3, where owners 2 and 3 withdraw theirs
/// for the table at once.
struct Network {
    engine: Engine,
    program: Locator,
    table: Locator,
}

fn network() -> Network {
    let mut records: Vec<Record> = Vec::new();
    let (mut program, mut table) = (None, None);
    for round in 0..6 {
        let before: Vec<Reference> = records.iter().rev().take(4).rev().map(Record::reference).collect();
        for owner in 0..4 {
            let mut record = builder(round, owner, digest(4 * round as u8 + owner as u8 + 1));
            if round > 0 {
                record = before.iter().fold(record, |record, block| record.include(*block));
            }
            match (round, owner) {
                (1, 0) => record = record.share(b"program"),
                (2, 1) => record = record.share(&needs(program.unwrap(), b"gain table")),
                (3, 0 | 1) => record = record.accept(program.unwrap()).accept(table.unwrap()),
                (3, _) => record = record.accept(program.unwrap()).accept(table.unwrap()).reject(table.unwrap(), None),
                _ => (),
            }
            let record = record.finish().unwrap();
            program = program.or(record.shares().next().map(|(share, _)| share));
            if round == 2 {
                table = table.or(record.shares().next().map(|(share, _)| share));
            }
            records.push(record);
        }
    }
    Network { engine: engine(&records), program: program.unwrap(), table: table.unwrap() }
}

fn needs(needed: Locator, payload: &[u8]) -> Vec<u8> {
    [&[1], &needed.to_bytes()[..], payload].concat()
}

/// The records that travel with a slip, and that of the share.
fn travelling(engine: &Engine, slip: &Slip) -> Vec<Record> {
    let mut records = engine.slip_records(slip).unwrap();
    let share = engine.records().find(|(_, record)| record.reference() == slip.locator().reference()).unwrap().1;
    if !records.contains(&share) {
        records.push(share);
    }
    records
}

struct Station(PathBuf);

impl Station {
    fn new(name: &str, reading: &str, calendar: &str) -> Station {
        let folder = folder(name);
        fs::write(folder.join("stakes"), stakes_file(&[1; 4])).unwrap();
        fs::write(folder.join("reading"), reading).unwrap();
        fs::write(folder.join("calendar"), calendar).unwrap();
        Station(folder)
    }

    fn run(&self, slip: &[u8], records: &[u8], payload: &[u8], time: u64) -> Output {
        let file = |name: &str, bytes: &[u8]| {
            let path = self.0.join(name);
            fs::write(&path, bytes).unwrap();
            path
        };
        let files = [self.0.clone(), file("a.slip", slip), file("a.records", records), file("a.payload", payload)];
        let mut command = Command::new(example("station"));
        command.args(files).arg(time.to_string()).stdin(Stdio::null()).output().unwrap()
    }

    /// What it says, which its exit status says too.
    fn says(&self, slip: &[u8], records: &[u8], payload: &[u8], time: u64) -> String {
        let output = self.run(slip, records, payload, time);
        let text = String::from_utf8_lossy(&output.stdout).trim_end().to_string();
        let told = String::from_utf8_lossy(&output.stderr).into_owned();
        let word = match output.status.code() {
            Some(0) => "load ",
            Some(3) => "wait until ",
            Some(4) => "refused: ",
            other => panic!("{other:?} {told}"),
        };
        assert!(text.starts_with(word), "{text}");
        assert!(told.starts_with("warning: no digest and no signature is checked"), "{told}");
        text
    }

    /// What it says of a change of a network, with all that belongs to it.
    fn shown(&self, engine: &Engine, locator: &Locator, reading: Reading, time: u64) -> String {
        let slip = engine.slip(locator, reading).unwrap();
        let records = framed(&travelling(engine, &slip));
        self.says(slip.as_bytes(), &records, engine.payload(locator).unwrap(), time)
    }
}

fn framed(records: &[Record]) -> Vec<u8> {
    common::input(0, records)[1..].to_vec()
}

#[test]
fn load_wait_and_order() {
    let Network { engine, program, table } = network();
    let station = Station::new("station-order", "old\n", "36000 37800\n396000 399600\n");
    let needed = format!("refused: it needs {program}, which has to be of a lower round, and loaded by its own slip before");
    assert_eq!(station.shown(&engine, &table, Reading::Old, MONDAY), needed);
    assert_eq!(station.shown(&engine, &program, Reading::Old, MONDAY + 36_000), format!("wait until {}", MONDAY + 37_800));
    assert_eq!(station.shown(&engine, &table, Reading::Old, MONDAY), needed, "one that waits is not loaded");
    assert_eq!(station.shown(&engine, &program, Reading::Old, MONDAY + 37_800), format!("load {program}"));
    assert_eq!(station.shown(&engine, &table, Reading::Old, MONDAY + 399_599), format!("wait until {}", MONDAY + 399_600));
    assert_eq!(station.shown(&engine, &table, Reading::Old, MONDAY + 395_999), format!("load {table}"));
    assert_eq!(station.shown(&engine, &table, Reading::Old, MONDAY), format!("load {table}"), "again");
    assert_eq!(fs::read_to_string(station.0.join("loaded")).unwrap(), format!("{program}\n{table}\n"));
    let never = Station::new("station-never", "old", "0 604800\n");
    let why = "refused: the calendar has no second in which anything may be loaded";
    assert_eq!(never.shown(&engine, &program, Reading::Old, MONDAY), why);
}

/// From a node's folder to a station: the node hands over what its list names, and the station loads it.
#[test]
fn from_a_node() {
    let Network { engine, program, .. } = network();
    let (state, handed, given) = (folder("station-node"), folder("station-handed"), folder("station-given"));
    fs::write(state.join("stakes"), stakes_file(&[1; 4])).unwrap();
    for (position, record) in engine.records() {
        fs::write(given.join(format!("{position:08}")), record.as_bytes()).unwrap();
    }
    let node = |words: &[&Path]| Command::new(example("node")).args(words).stdin(Stdio::null()).output().unwrap();
    let listed = String::from_utf8_lossy(&node(&[&state, &given]).stdout).into_owned();
    let named = listed.lines().find_map(|line| line.strip_prefix("final ")?.split("..").next()).unwrap();
    assert_eq!(named, program.to_string());
    let output = node(&[Path::new("--slip"), &state, Path::new(named), &handed]);
    assert!(output.status.success(), "{}", String::from_utf8_lossy(&output.stderr));
    let station = Station::new("station-from-node", "old", "");
    let file = |name: &str| fs::read(handed.join(name)).unwrap();
    assert_eq!(station.says(&file("slip"), &file("records"), &file("payload"), 0), format!("load {program}"));
    for (name, why) in [("1/0/00000005/9", "(52)"), ("nonsense", "nonsense: ")] {
        let output = node(&[Path::new("--slip"), &state, Path::new(name), &handed]);
        assert_eq!(output.status.code(), Some(1));
        assert!(String::from_utf8_lossy(&output.stderr).contains(why));
    }
}

/// A station of the new rule takes no slip of the old one for a change that was withdrawn, nor the other way round.
#[test]
fn the_reading_that_is_wanted() {
    let Network { engine, program, table } = network();
    let (old, new) = (Station::new("station-old", "old", ""), Station::new("station-new", "withdrawing", ""));
    let other = |rule| format!("refused: the slip is not of the reading {rule} (61)");
    assert_eq!(new.shown(&engine, &program, Reading::Withdrawing, 0), format!("load {program}"));
    assert_eq!(new.shown(&engine, &table, Reading::Old, 0), other("in which an owner may withdraw"));
    assert_eq!(old.shown(&engine, &program, Reading::Withdrawing, 0), other("in which a reject does nothing"));
    assert_eq!(engine.slip(&table, Reading::Withdrawing), Err(Refusal::SlipNotHeld), "it is withdrawn");
    // The old slip with the other first byte, and with every record there is.
    let slip = engine.slip(&table, Reading::Old).unwrap();
    let all: Vec<Record> = engine.records().map(|(_, record)| record).collect();
    let bytes = [&[1], &slip.as_bytes()[1..]].concat();
    let refused = format!("refused: {}", Refusal::SlipNotHeld);
    assert_eq!(new.says(&bytes, &framed(&all), engine.payload(&table).unwrap(), 0), refused);
    for wanted in [Reading::Old, Reading::Withdrawing] {
        let read = Slip::read(engine.committee(), slip.as_bytes(), &all, wanted);
        assert_eq!(read.map(drop), if wanted == Reading::Old { Ok(()) } else { Err(Refusal::SlipReadingUnknown) });
    }
}

/// Nothing is loaded by another payload, without the share's record, or with records that are damaged or left out.
#[test]
fn other_payloads_and_records() {
    let Network { engine, program, .. } = network();
    let station = Station::new("station-payload", "old", "");
    let slip = engine.slip(&program, Reading::Old).unwrap();
    let records = travelling(&engine, &slip);
    let says = |records: &[u8], payload: &[u8]| station.says(slip.as_bytes(), records, payload, 0);
    for payload in [&b"programs"[..], b"", b"Program"] {
        assert_eq!(says(&framed(&records), payload), format!("refused: the payload is not that of {program}"));
    }
    let whole = framed(&records);
    assert_eq!(says(&whole[..whole.len() - 1], b"program"), "refused: the records end inside one");
    for left_out in 0..records.len() {
        let mut rest = records.clone();
        let record = rest.remove(left_out);
        let why = match engine.slip_records(&slip).unwrap().contains(&record) {
            true => Refusal::SlipRecordMissing.to_string(),
            false => format!("the record of the share {program} did not come along"),
        };
        assert_eq!(says(&framed(&rest), b"program"), format!("refused: {why}"));
    }
    // A share of the same name with another content, as a node would send it that checks no digests, is caught by the payload alone.
    let place = records.iter().position(|record| record.reference() == program.reference()).unwrap();
    let forged = records[place].includes().fold(
        Record::builder(program.reference().round, program.reference().author, program.reference().digest),
        |record, block| record.include(block),
    );
    let mut other = records.clone();
    other[place] = forged.share(b"pr0gram").finish().unwrap();
    assert_eq!(says(&framed(&other), b"program"), format!("refused: the payload is not that of {program}"));
    assert_eq!(says(&framed(&other), b"pr0gram"), format!("load {program}"), "which is why trust.rs is there to be filled in");
}

/// Whichever byte of a slip is changed, the station loads this change or none.
#[test]
fn every_byte_of_a_slip() {
    let Network { engine, program, .. } = network();
    let station = Station::new("station-bytes", "old", "");
    let slip = engine.slip(&program, Reading::Old).unwrap();
    let (records, bytes) = (framed(&travelling(&engine, &slip)), slip.as_bytes());
    let (mut loaded, mut refused) = (0, 0);
    for place in (0..bytes.len()).filter(|place| *place < 120 || place % 4 == 0) {
        let mut bytes = bytes.to_vec();
        bytes[place] ^= 1 << (place % 8);
        match station.says(&bytes, &records, b"program", 0).as_str() {
            said if said == format!("load {program}") => loaded += 1,
            said => {
                assert!(said.starts_with("refused"), "byte {place}: {said}");
                refused += 1;
            }
        }
    }
    for length in (0..bytes.len()).step_by(23) {
        assert!(station.says(&bytes[..length], &records, b"program", 0).starts_with("refused"), "{length} bytes");
    }
    // A path may go by another include to the same vote.
    assert!(loaded < refused / 20, "{loaded} loaded, {refused} refused");
}

/// The records that travel: with them a slip is accepted, and with any of them left out a record is missing.
#[test]
fn records_of_a_slip() {
    let Network { engine, program, .. } = network();
    let graph = graph(4, 12);
    let other = self::engine(&graph);
    let mut lengths = Vec::new();
    for (engine, locator) in [(&engine, program), (&other, graph[20].reference().at(0))] {
        for reading in [Reading::Old, Reading::Withdrawing] {
            let slip = engine.slip(&locator, reading).unwrap();
            let records = engine.slip_records(&slip).unwrap();
            assert_eq!(Slip::read(engine.committee(), slip.as_bytes(), &records, reading), Ok(slip.clone()));
            for left_out in 0..records.len() {
                let mut rest = records.clone();
                rest.remove(left_out);
                let read = Slip::read(engine.committee(), slip.as_bytes(), &rest, reading);
                assert_eq!(read, Err(Refusal::SlipRecordMissing));
            }
            lengths.push((records.len(), engine.records().count()));
        }
    }
    // All blocks stand below the last round's certifying ones; the paths go by fewer.
    assert!(lengths[0].0 < lengths[1].0 && lengths[2].0 < lengths[3].0, "{lengths:?}");
    assert_eq!(lengths[3].0, lengths[3].1);
    let slip = other.slip(&graph[20].reference().at(0), Reading::Old).unwrap();
    assert_eq!(engine.slip_records(&slip), Err(Refusal::SlipRecordMissing), "another engine's");
}

/// A slip as large as they get is judged on the station's small stack: 1,024 records of 128 owners.
#[test]
fn the_largest_slip() {
    let owners = 128;
    let records = graph(owners, 8);
    let mut engine = Engine::new(Committee::new(&[Stake(1); 128]).unwrap(), 16 << 20);
    records.iter().for_each(|record| drop(engine.feed(record).unwrap()));
    let share = records[owners as usize].reference().at(0);
    for (reading, word) in [(Reading::Old, "old"), (Reading::Withdrawing, "withdrawing")] {
        let station = Station::new("station-large", word, "36000 37800\n");
        fs::write(station.0.join("stakes"), stakes_file(&[1; 128])).unwrap();
        let slip = engine.slip(&share, reading).unwrap();
        let said = station.says(slip.as_bytes(), &framed(&records), engine.payload(&share).unwrap(), MONDAY);
        assert_eq!(said, format!("load {share}"));
        println!("a slip of {} bytes with {} records", slip.as_bytes().len(), records.len());
    }
}

/// Errors name their file, and a station without a reading or a calendar loads nothing.
#[test]
fn errors_and_help() {
    let Network { engine, program, .. } = network();
    let slip = engine.slip(&program, Reading::Old).unwrap();
    let records = framed(&travelling(&engine, &slip));
    let fails = |station: &Station, name: &str, text: Option<&str>| {
        let path = station.0.join(name);
        match text {
            Some(text) => fs::write(&path, text).unwrap(),
            None => fs::remove_file(&path).unwrap(),
        }
        let output = station.run(slip.as_bytes(), &records, b"program", 0);
        let told = String::from_utf8_lossy(&output.stderr).into_owned();
        assert_eq!(output.status.code(), Some(1), "{name} {text:?}");
        assert!(told.contains(&format!("station: {}: ", path.display())) && output.stdout.is_empty(), "{told}");
        told
    };
    for (name, text) in [("reading", None), ("calendar", None), ("reading", Some("new")), ("calendar", Some("1 2 3"))] {
        fails(&Station::new("station-errors", "old", ""), name, text);
    }
    let station = Station::new("station-errors", "old", "");
    assert!(fails(&station, "calendar", Some("5 5")).contains("(59)"));
    assert!(fails(&Station::new("station-errors", "old", ""), "stakes", Some("x")).contains("(56)"));
    fails(&Station::new("station-errors", "old", ""), "epoch", Some("x"));
    fails(&Station::new("station-errors", "old", ""), "loaded", Some("1/0/0"));
    let call = |words: &[&Path]| Command::new(example("station")).args(words).stdin(Stdio::null()).output().unwrap();
    let help = call(&[Path::new("--help")]);
    assert!(help.status.success() && String::from_utf8_lossy(&help.stdout).contains("station FOLDER SLIP RECORDS PAYLOAD"));
    for words in [&[][..], &[Path::new("a")], &[Path::new("a"); 6]] {
        assert_eq!(call(words).status.code(), Some(2));
    }
}
