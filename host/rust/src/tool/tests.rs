//! The program on files, whole and damaged: no panic on any of them, and a reason of one line where one is refused.

use std::fs;
use std::path::Path;

use lomkhvide::{AuthorityIndex, Record, Reference, RoundNumber};

use super::malformed::malformed;
use super::{Asked, Fault, Whole, answer_bytes, asked};

/// How many damaged files are tried.
const DAMAGED: u64 = 500;

/// The inputs of `listing_runs`, by name.
fn inputs() -> Vec<(String, Vec<u8>)> {
    let folder = Path::new(env!("CARGO_MANIFEST_DIR")).join("../../crates/listing_runs/data");
    let mut paths: Vec<_> = fs::read_dir(folder).unwrap().map(|entry| entry.unwrap().path()).collect();
    paths.sort();
    paths.iter().map(|path| (path.file_name().unwrap().to_str().unwrap().to_string(), fs::read(path).unwrap())).collect()
}

fn command(words: &[&str]) -> Asked {
    let words: Vec<String> = words.iter().map(|word| word.to_string()).collect();
    asked(&words).unwrap().unwrap()
}

/// What is written, and whether it is from all records; or the reason.
fn told(words: &[&str], bytes: &[u8]) -> Result<(String, Whole), String> {
    let mut out = Vec::new();
    match answer_bytes(&command(words), bytes, &mut out) {
        Ok(whole) => Ok((String::from_utf8(out).unwrap(), whole)),
        Err(fault) => Err(fault.to_string()),
    }
}

struct Chance(u64);

impl Chance {
    fn below(&mut self, end: usize) -> usize {
        self.0 = self.0.wrapping_mul(6_364_136_223_846_793_005).wrapping_add(1_442_695_040_888_963_407);
        (self.0 >> 33) as usize % end.max(1)
    }

    /// Changes a few bytes, cuts the file, or puts bytes in.
    fn damage(&mut self, bytes: &mut Vec<u8>) {
        for _ in 0..=self.below(3) {
            let place = self.below(bytes.len());
            match self.below(5) {
                0 => bytes.truncate(place),
                1 => bytes.insert(place.min(bytes.len()), self.below(256) as u8),
                2 if place < bytes.len() => drop(bytes.remove(place)),
                _ if place < bytes.len() => bytes[place] = [0, 1, 2, 3, 127, 254, 255, self.below(256) as u8][self.below(8)],
                _ => (),
            }
        }
    }
}

/// Every command over these bytes.
fn try_all(bytes: &[u8], name: &str, chance: &mut Chance) {
    let (listed, whole) = told(&["list", "--listing", "x"], bytes).unwrap();
    let end = listed.lines().last().unwrap();
    assert!(end.starts_with("end ") && end.split(' ').count() == 6, "{name}: {end}");
    let first = listed.lines().next().unwrap();
    assert_eq!(whole == Whole::Nothing, first.starts_with("refused 0 "), "{name}: {first}");
    let typed = ["1/0/00000005/0", "1/2/0/18446744073709551615", "0/0/0/0", "2/1/ff/3"][chance.below(4)];
    let listed = told(&["list", "x"], bytes).map_or(String::new(), |(listed, _)| listed);
    let finals: Vec<&str> = listed.lines().filter(|line| line.starts_with("final")).collect();
    let locator = if finals.is_empty() { typed } else { finals[chance.below(finals.len())] };
    for words in [
        &["list", "x"][..],
        &["check", "x"],
        &["records", "x"],
        &["explain", "x"],
        &["explain", "--withdrawing", "x"],
        &["explain", "x", locator],
        &["explain", "--withdrawing", "x", locator],
        &["draw", "x"],
        &["draw", "--svg", "x"],
        &["draw", "--svg", "--withdrawing", "x", locator],
        &["explain", "--json", "x", locator],
        &["records", "--json", "x"],
    ] {
        match told(words, bytes) {
            Ok((text, whole)) => {
                assert!(text.contains("ommittee"), "{name}: {words:?}");
                if words[0] != "draw" && words[1] != "--json" {
                    let refused = text.lines().next().unwrap().contains(" refused and not counted; ");
                    assert_eq!(refused, whole == Whole::Part, "{name}: {words:?}: {text}");
                }
                if words[1] == "x" && words[0] == "explain" && words.len() == 3 && locator.starts_with("final") {
                    let line = text.lines().nth((whole == Whole::Part) as usize).unwrap();
                    assert!(line.ends_with(": final"), "{name}: {text}");
                }
            }
            Err(reason) => assert!(!reason.contains('\n') && reason.len() < 300, "{name}: {reason}"),
        }
    }
}

#[test]
fn whole_files() {
    let mut chance = Chance(3);
    for (name, bytes) in inputs() {
        try_all(&bytes, &name, &mut chance);
    }
}

#[test]
fn damaged_files() {
    let mut chance = Chance(7);
    // the longest ones have nothing to say that the others do not
    let inputs: Vec<_> = inputs().into_iter().filter(|(_, bytes)| bytes.len() < 20_000).collect();
    for _ in 0..DAMAGED {
        let (name, bytes) = &inputs[chance.below(inputs.len())];
        let mut bytes = bytes.clone();
        chance.damage(&mut bytes);
        try_all(&bytes, name, &mut chance);
    }
}

/// Bytes that are no input at all.
#[test]
fn noise() {
    let mut chance = Chance(9);
    for length in (0..200).chain([1000, 5000]) {
        let bytes: Vec<u8> = (0..length).map(|_| chance.below(256) as u8).collect();
        try_all(&bytes, "noise", &mut chance);
    }
}

/// A record has a malformed byte exactly where the engine finds it malformed.
#[test]
fn malformed_bytes() {
    let block = Reference::new(RoundNumber(3), AuthorityIndex(2), [3; 32]);
    let record = Record::builder(RoundNumber(9), AuthorityIndex(1), [4; 32])
        .include(block)
        .share(b"gain")
        .reject(block.at(1), Some(block.at(2)));
    let plain = record.clone().accept(block.at(0)).range(block.at(2), 3).finish().unwrap();
    let timed = record.time(5).finish().unwrap();
    let mut found = 0;
    for record in [&plain, &timed] {
        let bytes = record.as_bytes();
        let mut tried: Vec<Vec<u8>> = (0..bytes.len()).map(|length| bytes[..length].to_vec()).collect();
        tried.push([bytes, &[0]].concat());
        for (place, value) in (0..bytes.len()).flat_map(|place| [0, 1, 2, 3, 4, 255].map(|value| (place, value))) {
            let mut other = bytes.to_vec();
            other[place] = value;
            tried.push(other);
        }
        for bytes in tried {
            let place = malformed(&bytes);
            assert_eq!(place.is_some(), Record::read(&bytes).is_err(), "{bytes:?}: {place:?}");
            assert!(place.as_ref().is_none_or(|(at, _)| *at <= bytes.len()));
            found += place.is_some() as usize;
        }
    }
    assert!(found > 500, "{found} malformed records");
}

fn usage(words: &[&str]) -> String {
    let words: Vec<String> = words.iter().map(|word| word.to_string()).collect();
    match asked(&words) {
        Err(Fault::Usage(reason)) => reason,
        other => panic!("{other:?}"),
    }
}

#[test]
fn bad_arguments() {
    assert_eq!(usage(&["paint", "x"]), "paint: no such command; lomkhvide --help names them");
    assert_eq!(usage(&["list", "--fast", "x"]), "--fast: no such option; lomkhvide --help names them");
    assert_eq!(usage(&["list"]), "which FILE? lomkhvide --help says more");
    assert_eq!(usage(&["list", "x", "y"]), "y: one argument too many");
    assert_eq!(usage(&["stakes", "x", "y", "z"]), "z: one argument too many");
    assert_eq!(usage(&["list", "x", "--first", "two"]), "--first is followed by a number, not by 'two'");
    assert_eq!(usage(&["list", "x", "--first"]), "--first is followed by a number");
    assert_eq!(usage(&["list", "x", "--store", "15"]), "--store: a store has 16 to 4294967295 bytes");
    assert_eq!(usage(&["--json"]), "--json of which command? lomkhvide --help names them");
    for help in [&[][..], &["--help"], &["list", "--help"], &["help"]] {
        let words: Vec<String> = help.iter().map(|word| word.to_string()).collect();
        assert!(asked(&words).unwrap().is_none());
    }
}

/// No option is ignored in silence.
#[test]
fn options_that_do_not_apply() {
    for (words, reason) in [
        (&["list", "--withdrawing", "x"][..], "--withdrawing does not apply to list: its lines are those of listing;"),
        (&["list", "--svg", "x"], "--svg does not apply to list;"),
        (&["check", "--reach", "1", "x"], "--reach does not apply to check;"),
        (&["draw", "--all", "x"], "--all does not apply to draw;"),
        (&["explain", "--svg", "x"], "--svg does not apply to explain;"),
        (&["explain", "--listing", "x"], "--listing does not apply to explain;"),
        (&["stakes", "--first", "1", "x"], "--first does not apply to stakes;"),
        (&["list", "--listing", "--store", "100", "x"], "--listing and --store do not go together"),
        (&["draw", "--svg", "--json", "x"], "--svg and --json do not go together"),
    ] {
        assert!(usage(words).starts_with(reason), "{words:?}: {}", usage(words));
    }
    let course = &inputs().into_iter().find(|(name, _)| name == "course_run.bin").unwrap().1;
    let reason = told(&["list", "--stakes", "stakes", "x"], course).unwrap_err();
    assert_eq!(reason, "--stakes: x has a committee of its own, of 4 owners");
}

#[test]
fn bad_locators() {
    let course = &inputs().into_iter().find(|(name, _)| name == "course_run.bin").unwrap().1;
    for (locator, reason) in [
        ("1/0/00000005", "1/0/00000005: a locator is ROUND/AUTHOR/DIGEST/OFFSET, the digest in hexadecimal, as 1/0/00000005/0"),
        ("1/0/00000005/x", "1/0/00000005/x: the offset 'x' is no number"),
        ("1/0/0000000g/0", "1/0/0000000g/0: the digest '0000000g' is not of up to 64 hexadecimal digits"),
        (
            "1/0/00000006/0",
            "1/0/00000006/0: no block of round 1 and owner 0 whose digest begins with 00000006 is stored, voted on or refused",
        ),
    ] {
        let told = told(&["explain", "x", locator], course).unwrap_err();
        assert!(told.starts_with(reason), "{told}");
    }
    let whole = format!("9/9/{}/1", "ab".repeat(32));
    let (told, _) = told(&["explain", "x", &whole], course).unwrap();
    assert!(told.starts_with("9/9/abababab/1, offset 1 of a block that is not stored: not final\n"), "{told}");
}
