//! A station: it loads a change once a node has shown it by a slip that the change is final.
//!
//!     cargo run --example station -- FOLDER SLIP RECORDS PAYLOAD [TIME]
//!     cargo run --example station -- --help
//!
//! It holds no store and counts no votes. A node hands it all three files (`node --slip`): the slip, the records that have to travel with it
//! (`Engine::slip_records`) with that of the share itself, and the payload. The work is done on a small stack, as stations have it: the
//! header says 32 KB for the reader of slips.

#[path = "node/trust.rs"]
mod trust;

use std::collections::BTreeSet;
use std::env;
use std::error::Error;
use std::fmt;
use std::fs::{self, File};
use std::io::{self, Write};
use std::path::{Path, PathBuf};
use std::process::ExitCode;
use std::thread;
use std::time::{SystemTime, UNIX_EPOCH};

use lomkhvide::{Calendar, Committee, Locator, Reading, Record, Refusal, Slip, Window};

const HELP: &str = "\
station FOLDER SLIP RECORDS PAYLOAD [TIME]
    says whether a change may be loaded: 'load', 'wait until SECOND' or 'refused: WHY'

SLIP is a finality slip, RECORDS the records that come with it and that of the share, each after its length (4 bytes), PAYLOAD what
would be loaded, TIME the second since 1970, by default the clock's.

FOLDER has the files
    stakes     the committee; without it, the course committee
    reading    the word 'old', or 'withdrawing' where an owner may withdraw: slips of the other reading are refused
    calendar   a line for each window of the week in which nothing is loaded, its first second and the one after its last; none: no lines
    epoch      the number of the epoch; without it, 1
    loaded     the changes that were loaded, which the station writes

Exit status: 0 load; 1 an error, which names its file; 2 another command line; 3 wait; 4 refused";

/// The stack on which a slip is judged: 32 KB for the engine's calls, the rest for what is around them.
const STACK: usize = 48 << 10;

/// What a station is and has loaded.
struct Station {
    committee: Committee,
    reading: Reading,
    calendar: Calendar,
    epoch: u64,
    loaded: BTreeSet<Locator>,
}

/// What a station is handed.
struct Handed {
    slip: Vec<u8>,
    /// Records, each after its length.
    records: Vec<u8>,
    payload: Vec<u8>,
}

/// What becomes of a change.
#[derive(Debug, PartialEq)]
enum Verdict {
    Load(Locator),
    /// Until this second nothing may be loaded.
    Wait(u64),
    Refused(Why),
}

/// Why a change is not loaded.
#[derive(Debug, PartialEq)]
enum Why {
    /// The slip or a record, by the engine's number.
    Engine(Refusal),
    OtherReading(Reading),
    RecordsNotWhole,
    Untrusted(String),
    NoShare(Locator),
    OtherPayload(Locator),
    /// It needs this one, which was not loaded, or is not of a lower round.
    Needs(Locator),
    NeverOpen,
}

impl fmt::Display for Why {
    fn fmt(&self, f: &mut fmt::Formatter) -> fmt::Result {
        match self {
            Why::Engine(refusal) => write!(f, "{refusal}"),
            Why::OtherReading(wanted) => {
                let rule = match wanted {
                    Reading::Old => "in which a reject does nothing",
                    Reading::Withdrawing => "in which an owner may withdraw",
                };
                write!(f, "the slip is not of the reading {rule} ({})", Refusal::SlipReadingUnknown.number())
            }
            Why::RecordsNotWhole => f.write_str("the records end inside one"),
            Why::Untrusted(why) => f.write_str(why),
            Why::NoShare(locator) => write!(f, "the record of the share {locator} did not come along"),
            Why::OtherPayload(locator) => write!(f, "the payload is not that of {locator}"),
            Why::Needs(locator) => {
                write!(f, "it needs {locator}, which has to be of a lower round, and loaded by its own slip before")
            }
            Why::NeverOpen => f.write_str("the calendar has no second in which anything may be loaded"),
        }
    }
}

impl From<Refusal> for Why {
    fn from(refusal: Refusal) -> Why {
        Why::Engine(refusal)
    }
}

impl Station {
    /// Whether to load what was handed over, at a time in seconds since 1970.
    fn judge(&self, handed: &Handed, time: u64) -> Verdict {
        match self.accepted(handed).and_then(|locator| Ok((locator, self.calendar.next_open(time)?))) {
            Ok((locator, Some(second))) if second == time => Verdict::Load(locator),
            Ok((_, Some(second))) => Verdict::Wait(second),
            Ok((_, None)) => Verdict::Refused(Why::NeverOpen),
            Err(why) => Verdict::Refused(why),
        }
    }

    /// The change, where everything but the calendar is in its favour.
    fn accepted(&self, handed: &Handed) -> Result<Locator, Why> {
        let mut records = Vec::new();
        for bytes in frames(&handed.records).ok_or(Why::RecordsNotWhole)? {
            let record = Record::read_under(&self.committee, bytes)?;
            trust::verified(&record, self.epoch).map_err(Why::Untrusted)?;
            records.push(record);
        }
        let slip = match Slip::read(&self.committee, &handed.slip, &records, self.reading) {
            Err(Refusal::SlipReadingUnknown) => return Err(Why::OtherReading(self.reading)),
            slip => slip?,
        };
        let locator = slip.locator();
        let share = records.iter().flat_map(Record::shares).find(|(share, _)| *share == locator);
        let (_, payload) = share.ok_or(Why::NoShare(locator))?;
        if payload != handed.payload {
            return Err(Why::OtherPayload(locator));
        }
        match needed(payload) {
            Some(needed) if needed.reference().round >= locator.reference().round || !self.loaded.contains(&needed) => {
                Err(Why::Needs(needed))
            }
            _ => Ok(locator),
        }
    }
}

/// Records, each after its length of 4 bytes; none where they end inside one.
fn frames(mut bytes: &[u8]) -> Option<Vec<&[u8]>> {
    let mut frames = Vec::new();
    while !bytes.is_empty() {
        let (length, rest) = bytes.split_first_chunk()?;
        let (record, rest) = rest.split_at_checked(u32::from_le_bytes(*length) as usize)?;
        frames.push(record);
        bytes = rest;
    }
    Some(frames)
}

/// The change that a payload needs: one that begins with 1 has its locator next.
fn needed(payload: &[u8]) -> Option<Locator> {
    let (first, rest) = payload.split_first()?;
    rest.first_chunk().filter(|_| *first == 1).map(Locator::from_bytes)
}

type Told<T> = Result<T, Box<dyn Error>>;

fn at<T, E: fmt::Display>(path: &Path, done: Result<T, E>) -> Told<T> {
    done.map_err(|error| format!("{}: {error}", path.display()).into())
}

/// A file that need not be there.
fn read_if_there(path: &Path) -> Told<Option<Vec<u8>>> {
    match fs::read(path) {
        Err(error) if error.kind() == io::ErrorKind::NotFound => Ok(None),
        read => at(path, read).map(Some),
    }
}

impl Station {
    fn open(folder: &Path) -> Told<Station> {
        let path = |name: &str| folder.join(name);
        let text = |name: &str| at(&path(name), fs::read_to_string(path(name)));
        let stakes = read_if_there(&path("stakes"))?.unwrap_or_default();
        let reading = match text("reading")?.trim() {
            "old" => Reading::Old,
            "withdrawing" => Reading::Withdrawing,
            other => return at(&path("reading"), Err(format!("'{other}' is no reading"))),
        };
        let mut windows = Vec::new();
        for line in text("calendar")?.lines() {
            let numbers: Vec<Option<u64>> = line.split_whitespace().map(|word| word.parse().ok()).collect();
            let [Some(start), Some(end)] = numbers[..] else {
                return at(&path("calendar"), Err(format!("'{line}' is no window: two numbers are")));
            };
            windows.push(Window { start, end });
        }
        let calendar = Calendar::new(&windows);
        at(&path("calendar"), calendar.is_open(0))?;
        let epoch = match read_if_there(&path("epoch"))? {
            Some(_) => at(&path("epoch"), text("epoch")?.trim().parse::<u64>())?,
            None => 1,
        };
        let mut loaded = BTreeSet::new();
        if read_if_there(&path("loaded"))?.is_some() {
            for line in text("loaded")?.lines() {
                loaded.insert(at(&path("loaded"), line.parse::<Locator>())?);
            }
        }
        Ok(Station { committee: at(&path("stakes"), Committee::load(&stakes))?, reading, calendar, epoch, loaded })
    }

    /// Notes that a change was loaded: from now on those that need it may be. The file is replaced as a whole, by a rename.
    fn note(&self, folder: &Path, locator: &Locator) -> Told<()> {
        let mut loaded = self.loaded.clone();
        loaded.insert(*locator);
        let text: String = loaded.iter().map(|locator| format!("{locator}\n")).collect();
        let (path, beside) = (folder.join("loaded"), folder.join("loaded.new"));
        let written = File::create(&beside).and_then(|mut file| file.write_all(text.as_bytes()).and_then(|_| file.sync_all()));
        at(&path, written.and_then(|_| fs::rename(&beside, &path)))
    }
}

fn run(words: &[PathBuf], time: u64) -> Told<Verdict> {
    let (folder, read) = (words[0].clone(), |path: &PathBuf| at(path, fs::read(path)));
    let handed = Handed { slip: read(&words[1])?, records: read(&words[2])?, payload: read(&words[3])? };
    if !trust::CHECKED {
        eprintln!("warning: no digest and no signature is checked, so anybody can make a slip; see trust.rs");
    }
    let work = move || -> Result<Verdict, String> {
        let station = Station::open(&folder).map_err(|error| error.to_string())?;
        let verdict = station.judge(&handed, time);
        if let Verdict::Load(locator) = &verdict {
            // A real one writes the payload to its instrument here. Loading twice does no harm, so it is noted after that.
            station.note(&folder, locator).map_err(|error| error.to_string())?;
        }
        Ok(verdict)
    };
    let worker = thread::Builder::new().stack_size(STACK).spawn(work)?;
    Ok(worker.join().map_err(|_| "the work was broken off")??)
}

fn main() -> ExitCode {
    let words: Vec<PathBuf> = env::args_os().skip(1).map(PathBuf::from).collect();
    if words.first().is_some_and(|word| word.as_os_str() == "--help" || word.as_os_str() == "-h") {
        println!("{HELP}");
        return ExitCode::SUCCESS;
    }
    let now = SystemTime::now().duration_since(UNIX_EPOCH).map_or(0, |since| since.as_secs());
    let time = words.get(4).map_or(Some(now), |word| word.to_str()?.parse().ok());
    let (4..=5, Some(time)) = (words.len(), time) else {
        eprintln!("{HELP}");
        return ExitCode::from(2);
    };
    match run(&words, time) {
        Ok(Verdict::Load(locator)) => {
            println!("load {locator}");
            ExitCode::SUCCESS
        }
        Ok(Verdict::Wait(second)) => {
            println!("wait until {second}");
            ExitCode::from(3)
        }
        Ok(Verdict::Refused(why)) => {
            println!("refused: {why}");
            ExitCode::from(4)
        }
        Err(error) => {
            eprintln!("station: {error}");
            ExitCode::FAILURE
        }
    }
}
