//! The program as it is called.

mod common;

use std::fs::{self, File};
use std::io::Write;
use std::path::Path;
use std::process::{Command, Output, Stdio};
use std::time::{Duration, Instant};

use common::{Json, folder, graph, input, runs};
use lomkhvide::{AuthorityIndex, Record, Reference, RoundNumber};

fn tool(words: &[&str]) -> Output {
    Command::new(env!("CARGO_BIN_EXE_lomkhvide")).args(words).output().unwrap()
}

fn tool_in(folder: &Path, words: &[&str]) -> Output {
    Command::new(env!("CARGO_BIN_EXE_lomkhvide")).args(words).current_dir(folder).output().unwrap()
}

fn text(bytes: &[u8]) -> &str {
    std::str::from_utf8(bytes).unwrap()
}

fn file(name: &str) -> String {
    runs().join("data").join(name).to_str().unwrap().to_string()
}

/// `list --listing` prints what `listing` prints on each of its inputs; its status says whether all was taken.
#[test]
fn lists() {
    let expected = fs::read_to_string(runs().join("stdout")).unwrap();
    let mut tried = 0;
    for run in expected.split("== ").skip(1) {
        let (name, lines) = run.split_once('\n').unwrap();
        let output = tool(&["list", "--listing", &file(name)]);
        let status = match lines {
            _ if lines.starts_with("refused 0 ") => 2,
            _ if lines.contains("refused ") => 3,
            _ => 0,
        };
        assert!(output.status.code() == Some(status) && output.stderr.is_empty(), "{name}");
        assert_eq!(text(&output.stdout), lines, "{name}");
        tried += 1;
    }
    assert!(tried > 30, "{tried} inputs");
}

/// The committee of the file `stakes` in the folder that it is run in, as `listing` takes it.
#[test]
fn a_network_s_own_stakes() {
    let stakes_runs = runs().join("../stakes_runs");
    let expected = fs::read_to_string(stakes_runs.join("stdout")).unwrap();
    for run in expected.split("== ").skip(1) {
        let (name, lines) = run.split_once('\n').unwrap();
        let folder = folder("stakes");
        let stakes = match name {
            "input.bin" => Some(stakes_runs.join("data/stakes")),
            _ => Some(stakes_runs.join("data").join(name)).filter(|path| path.exists()),
        };
        if let Some(path) = stakes {
            fs::copy(path, folder.join("stakes")).unwrap();
        }
        let input = stakes_runs.join("data/input.bin");
        let output = tool_in(&folder, &["list", "--listing", input.to_str().unwrap()]);
        assert_eq!(text(&output.stdout), lines, "{name}");
    }
}

#[test]
fn explains_the_course_run() {
    let output = tool(&["explain", &file("course_run.bin"), "1/0/00000005/0"]);
    assert!(output.status.success());
    let certifier = |record: u64, owner: u64| {
        format!(
            "
record {record} (round 3, owner {owner}, stake 1) certifies:
  owner 0, stake 1: record 5 shares it, by {record} > 8 > 5
  owner 1, stake 1: record 9 accepts it, by {record} > 9
  owner 2, stake 1: record 10 accepts it, by {record} > 10
  owners 0, 1, 2 hold stake 3 of 4, quorum begins at 3
"
        )
    };
    let first = "1/0/00000005/0, share 0 of record 5: final
Committee: 4 owners, stake 4 in all, quorum from 3; in the file.
3 blocks certify it; owners 0, 1, 2 hold stake 3 of 4, quorum begins at 3.
A station may load it.
";
    let expected = format!("{first}{}{}{}", certifier(11, 0), certifier(12, 1), certifier(13, 2));
    assert_eq!(text(&output.stdout), expected);
    let as_listed = tool(&["explain", &file("course_run.bin"), "final", "1", "0", "00000005", "0", "3", "3"]);
    assert_eq!(as_listed.stdout, output.stdout, "the line of the list can be given as it stands");
}

/// The course's exercise "Two votes short".
#[test]
fn whom_to_ring() {
    let file = file("heads_for_stake.bin");
    for (reachable, told) in [
        ("0,1,4,5", "Ring of those who can be reached: owners 0, 1 hold stake 8, the fewest who bring it to quorum."),
        ("0,4,5", "Ring of those who can be reached: owners 0, 4 hold stake 7, the fewest who bring it to quorum."),
        (
            "0,5,6,9",
            "Ring of those who can be reached (9 is no owner): owners 0, 5 hold stake 6, the fewest who bring it to quorum.",
        ),
        ("1,4,5", "Ring of those who can be reached: owners 1, 4, 5 hold stake 6, the fewest who bring it to quorum."),
        ("2,3,4,5", "Nobody of those who can be reached can bring it to quorum: all together hold too little."),
    ] {
        let output = tool(&["explain", "--first", "18", "--reach", reachable, &file, "1/6/0000000e/0"]);
        assert_eq!(text(&output.stdout).lines().last(), Some(told));
    }
}

#[test]
fn not_final() {
    let expected = "1/2/00000007/0, share 0 of record 7: not final
Committee: 4 owners, stake 4 in all, quorum from 3; in the file.
3 blocks certify it; owners 0, 3 hold stake 2 of 4, quorum begins at 3, 1 more.

Votes:
  owner 2, stake 1: record 7 shares it
  owner 0, stake 1: record 9 accepts it
  owner 3, stake 1: record 12 accepts it
Record 12 brought the votes to quorum.
An unmarked block certifies that has quorum votes at or below it.
Ring for such a block: owner 1 holds stake 1, the fewest who bring its certificates to quorum.
";
    let told = tool(&["explain", &file("owner_twice.bin"), "1/2/00000007/0"]);
    assert_eq!(text(&told.stdout), expected);
    let told = tool(&["explain", "--reach", "2,3", &file("owner_twice.bin"), "1/2/00000007/0"]);
    let last = "Ring for such a block of those who can be reached: owner 2 holds stake 1, the fewest who bring its certificates to quorum.";
    assert_eq!(text(&told.stdout).lines().last(), Some(last));
}

/// A block of round 1 over all of round 0, four owners.
fn first_round(author: u64, number: u8) -> lomkhvide::RecordBuilder {
    let block = |author: u64| Reference::new(RoundNumber(0), AuthorityIndex(author), [1 + author as u8; 32]);
    let record = Record::builder(RoundNumber(1), AuthorityIndex(author), [number; 32]);
    (0..4).fold(record, |record, author| record.include(block(author)))
}

/// Owners whose vote came before the share was stored are not rung again.
#[test]
fn votes_before_the_share() {
    let path = folder("before").join("before.bin");
    let mut records: Vec<Record> =
        (0..4).map(|i| Record::builder(RoundNumber(0), AuthorityIndex(i), [1 + i as u8; 32]).finish().unwrap()).collect();
    let share = first_round(0, 6).share(b"gain").finish().unwrap();
    records.push(first_round(1, 5).accept(share.reference().at(0)).finish().unwrap());
    records.push(share.clone());
    fs::write(&path, input(4, &records)).unwrap();
    let told = tool(&["explain", path.to_str().unwrap(), &share.reference().at(0).to_string()]);
    let told = text(&told.stdout);
    assert!(told.contains("\nCounted so far: owner 0 holds stake 1 of 4, quorum begins at 3, 2 more.\n"), "{told}");
    assert!(
        told.contains(
            "\nThe vote of owner 1 came before the share was stored: not counted above, and good for certificates.\n"
        ),
        "{told}"
    );
    assert!(told.contains("\nBy their owners: owners 0, 1 hold stake 2 of 4, quorum begins at 3, 1 more.\n"), "{told}");
    assert!(told.ends_with("\nRing: owner 2 holds stake 1, the fewest who bring it to quorum.\n"), "{told}");
}

/// Where owners may withdraw, votes that were withdrawn are not counted, and loading is asked in that reading.
#[test]
fn withdrawn_votes() {
    let path = folder("withdrawn").join("withdrawn.bin");
    let mut records: Vec<Record> =
        (0..4).map(|i| Record::builder(RoundNumber(0), AuthorityIndex(i), [1 + i as u8; 32]).finish().unwrap()).collect();
    let share = first_round(0, 6).share(b"gain").finish().unwrap();
    let locator = share.reference().at(0);
    records.push(share.clone());
    records.push(first_round(1, 7).accept(locator).reject(locator, None).finish().unwrap());
    fs::write(&path, input(4, &records)).unwrap();
    let path = path.to_str().unwrap();
    let old = tool(&["explain", path, &locator.to_string()]);
    assert!(
        text(&old.stdout).ends_with("\nRing: owner 2 holds stake 1, the fewest who bring it to quorum.\n"),
        "{}",
        text(&old.stdout)
    );
    let new = tool(&["explain", "--withdrawing", path, &locator.to_string()]);
    let new = text(&new.stdout);
    assert!(new.contains("\nVotes that stand: owner 0 holds stake 1 of 4, quorum begins at 3, 2 more.\n"), "{new}");
    assert!(new.ends_with("\nRing: owners 2, 3 hold stake 2, the fewest who bring it to quorum.\n"), "{new}");
    let course = tool(&["explain", "--withdrawing", &file("course_run.bin"), "1/0/00000005/0"]);
    assert!(text(&course.stdout).contains("\nA station may load it.\n"), "{}", text(&course.stdout));
}

/// Every record of a file is fed, however many bytes they have together.
#[test]
fn the_store_is_sized_from_the_file() {
    let folder = folder("sized");
    let path = folder.join("large.bin");
    let records = graph(5, 80);
    fs::write(&path, input(5, &records)).unwrap();
    assert!(fs::metadata(&path).unwrap().len() > 3 * 65_536);
    let path = path.to_str().unwrap();
    let late = format!("{}", records[300].reference().at(0));
    let explained = tool(&["explain", path, &late]);
    assert_eq!(explained.status.code(), Some(0));
    assert!(text(&explained.stdout).lines().next().unwrap().ends_with(": final"), "{}", text(&explained.stdout));
    let listed = tool(&["list", path]);
    assert!(listed.status.code() == Some(0) && text(&listed.stdout).contains("\nend 400 0 "), "{}", text(&listed.stdout));
    let drawn = tool(&["draw", path]);
    assert_eq!((drawn.status.code(), text(&drawn.stdout).matches("<g id=\"b").count()), (Some(0), 400));
    let as_listing = tool(&["list", "--listing", path]);
    assert!(as_listing.status.code() == Some(3) && text(&as_listing.stdout).contains("\nrefused "));
}

/// Where records are refused, every answer begins with how many and why the first, and the status is 3.
#[test]
fn answers_from_part_of_a_file() {
    let folder = folder("part");
    let path = folder.join("part.bin");
    let records = graph(5, 20);
    fs::write(&path, input(5, &records)).unwrap();
    let path = path.to_str().unwrap();
    let first = tool(&["check", "--store", "16384", path]);
    let line = text(&first.stdout).lines().next().unwrap().to_string();
    assert!(line.contains(" of 100 records were refused and not counted; the first, record "), "{line}");
    assert!(line.ends_with(": the store is full (13)."), "{line}");
    for words in [&["list"][..], &["explain"], &["records"]] {
        let output = tool(&[words, &["--store", "16384", path]].concat());
        assert_eq!(output.status.code(), Some(3), "{words:?}");
        let told = text(&output.stdout).lines().next().unwrap();
        assert_eq!(told, format!("{line} 'lomkhvide check' tells more."), "{words:?}");
    }
    for words in [&["draw", "--svg"][..], &["draw"]] {
        let output = tool(&[words, &["--store", "16384", path]].concat());
        assert_eq!(output.status.code(), Some(3), "{words:?}");
        assert!(text(&output.stdout).contains(&line), "{words:?}");
        assert!(text(&output.stderr).contains("some records were refused"), "{words:?}");
    }
    let json = tool(&["list", "--json", "--store", "16384", path]);
    assert!(text(&json.stdout).starts_with("{\"refused\":{\"count\":"), "{}", text(&json.stdout));
    assert_eq!(json.status.code(), Some(3));
}

/// A question about a block whose record was refused names that record and its reason.
#[test]
fn a_question_about_a_refused_record() {
    let folder = folder("refused-record");
    let path = folder.join("part.bin");
    let records = graph(5, 20);
    fs::write(&path, input(5, &records)).unwrap();
    let late = format!("{:#}", records[98].reference().at(0));
    let output = tool(&["explain", "--store", "16384", path.to_str().unwrap(), &late]);
    assert_eq!(output.status.code(), Some(3));
    assert!(text(&output.stdout).contains("\nIts block was sent in record 99, byte "), "{}", text(&output.stdout));
    assert!(text(&output.stdout).contains(", and refused: an include is not stored (30).\n"), "{}", text(&output.stdout));
    let none = tool(&["explain", "--first", "40", path.to_str().unwrap(), &late]);
    assert_eq!(none.status.code(), Some(1), "nothing speaks of it");
}

/// 0 answered from all, 3 although some were refused, 1 usage, 2 cannot be read.
#[test]
fn exit_statuses() {
    let folder = folder("statuses");
    let empty = folder.join("empty");
    fs::write(&empty, []).unwrap();
    let (course, refusals, empty) = (file("course_run.bin"), file("refusals.bin"), empty.to_str().unwrap());
    for (words, status) in [
        (vec!["check", &course], 0),
        (vec!["explain", &course], 0),
        (vec!["check", &refusals], 3),
        (vec!["explain", &refusals], 3),
        (vec!["draw", &refusals], 3),
        (vec!["list", &refusals], 3),
        (vec!["list", "--withdrawing", &course], 1),
        (vec!["list", "--svg", &course], 1),
        (vec!["explain", &course, "nonsense"], 1),
        (vec!["explain", "--reach", "karst", &course], 1),
        (vec!["list", "no such file"], 2),
        (vec!["list", folder.to_str().unwrap()], 2),
        (vec!["check", empty], 2),
        (vec!["explain", empty], 2),
        (vec!["list", "--stakes", "no such file", &file("heads_for_stake.bin")], 2),
        (vec!["list", "--stakes", "no such file", &course], 1),
    ] {
        assert_eq!(tool(&words).status.code(), Some(status), "{words:?}");
    }
    let told = tool(&["explain", empty]);
    assert!(text(&told.stderr).ends_with("the committee has no stakes; the file is empty (1)\n"), "{}", text(&told.stderr));
}

#[test]
fn checks() {
    let good = tool(&["check", &file("course_run.bin")]);
    let committee = "Committee: 4 owners, stake 4 in all, quorum from 3; in the file.";
    assert_eq!((good.status.code(), text(&good.stdout)), (Some(0), &format!("13 accepted, 0 refused\n{committee}\n")[..]));
    let bad = tool(&["check", &file("refusals.bin")]);
    assert_eq!(bad.status.code(), Some(3));
    for line in [
        "record 10, byte 768, round 1, owner 0, digest 0000000a: refused 24, the author of an include is not in the committee: \
         include 4, 0/4/00000063: the owners have the numbers 0 to 3",
        "record 9, byte 708, round 0, owner 0, digest 00000001: refused 23, a block of that reference is stored already: record 1 is it",
        "record 18, byte 3350, round 1, owner 0, digest 00000012: refused 29, the authors of the includes of the round before do not \
         hold quorum: of round 0, owners 0, 1 hold stake 2 of 4, quorum begins at 3, 1 more",
        "record 20, byte 3854, round 1, owner 0, digest 00000014: refused 30, an include is not stored: include 4, 0/0/00000063: \
         no record of the file holds it",
    ] {
        assert!(text(&bad.stdout).contains(&format!("\n{line}\n")), "{line}\n{}", text(&bad.stdout));
    }
    let cut = tool(&["check", &file("stray_bytes.bin")]);
    assert_eq!(cut.status.code(), Some(3));
    assert!(text(&cut.stdout).contains("where the length of a record has 4\n"), "{}", text(&cut.stdout));
}

/// The byte that is malformed, and the include that came too late.
#[test]
fn checks_name_the_place() {
    let folder = folder("places");
    let path = folder.join("damaged.bin");
    let records = graph(4, 3);
    let mut bytes = input(4, &records);
    let at = 33 + 4 + 48;
    bytes[at] = 7;
    fs::write(&path, &bytes).unwrap();
    let told = tool(&["check", path.to_str().unwrap()]);
    let lines: Vec<&str> = text(&told.stdout).lines().collect();
    assert_eq!(
        lines[1],
        format!(
            "record 1, byte 33, round 0, owner 0, digest 00000001: refused 20, the record, locator or reference is malformed: \
             byte {at} of the file, byte 48 of the record: the epoch mark is 7, not 0 or 1"
        )
    );
    assert!(
        lines[2]
            .ends_with("refused 30, an include is not stored: include 0, 0/0/00000001: record 1, which holds it, was refused")
    );
    let order: Vec<Record> = [&records[1..], &records[..1]].concat();
    fs::write(&path, input(4, &order)).unwrap();
    let told = tool(&["check", path.to_str().unwrap()]);
    assert!(
        text(&told.stdout).contains(": include 0, 0/0/00000001: record 12, which holds it, comes later\n"),
        "{}",
        text(&told.stdout)
    );
}

/// A file that is being written ends inside a record: the answer is from the others, and says so.
#[test]
fn growing_files() {
    let folder = folder("growing");
    let path = folder.join("growing.bin");
    let records = graph(4, 6);
    let whole = input(4, &records);
    let mut finals = 0;
    for length in (whole.len() / 2..whole.len()).step_by(97) {
        fs::write(&path, &whole[..length]).unwrap();
        let told = tool(&["list", path.to_str().unwrap()]);
        let lines = text(&told.stdout);
        if told.status.code() == Some(3) {
            let first = lines.lines().next().unwrap();
            assert!(first.starts_with("1 of ") && first.contains(" was refused and not counted; record "), "{first}");
            assert!(first.contains("the file ends inside it") || first.contains("stray byte"), "{first}");
        } else {
            assert_eq!(told.status.code(), Some(0));
        }
        let now = lines.lines().filter(|line| line.starts_with("final ")).count();
        assert!(now >= finals, "what was final stays final");
        finals = now;
    }
    assert!(finals > 0);
}

/// 4 GB are refused in a second, and an endless file in bounded memory.
#[test]
fn huge_files() {
    let folder = folder("huge");
    let path = folder.join("huge.bin");
    File::create(&path).unwrap().set_len(4 << 30).unwrap();
    for words in [&["explain"][..], &["draw"], &["list"], &["check"], &["records"], &["stakes"]] {
        let start = Instant::now();
        let told = tool(&[words, &[path.to_str().unwrap()]].concat());
        assert!(start.elapsed() < Duration::from_secs(5), "{words:?}: {:?}", start.elapsed());
        assert_eq!(told.status.code(), Some(2), "{words:?}");
        assert!(
            text(&told.stderr).contains("4294967296 bytes or more, and at most 134217728 are read"),
            "{}",
            text(&told.stderr)
        );
        assert!(told.stdout.is_empty());
    }
    let endless = tool(&["check", "/dev/zero"]);
    assert_eq!(endless.status.code(), Some(2));
    assert!(text(&endless.stderr).contains("134217729 bytes or more"), "{}", text(&endless.stderr));
    // A file of records of no bytes: as many as there can be.
    let records = folder.join("records.bin");
    let mut bytes = input(4, &[]);
    bytes.resize(4 << 20, 0);
    fs::write(&records, bytes).unwrap();
    let told = tool(&["check", records.to_str().unwrap()]);
    assert_eq!(told.status.code(), Some(2));
    assert!(text(&told.stderr).contains("over 262144 records"), "{}", text(&told.stderr));
}

/// One line on standard error, with the place, and a status other than 0.
#[test]
fn bad_input() {
    for (words, told, status) in [
        (
            vec!["list".to_string(), "no such file".into()],
            "lomkhvide: no such file: cannot be read: No such file or directory (os error 2)\n",
            2,
        ),
        (vec!["list".to_string(), "/".into()], "lomkhvide: /: cannot be read: Is a directory (os error 21)\n", 2),
        (
            vec!["draw".into(), file("committee_zero_stake.bin")],
            "byte 0: the committee is refused: a stake of the committee is zero (2)\n",
            2,
        ),
        (vec!["paint".into()], "lomkhvide: paint: no such command; lomkhvide --help names them\n", 1),
        (vec!["list".into(), "a\nb".into()], "lomkhvide: a\\nb: cannot be read: No such file or directory (os error 2)\n", 2),
    ] {
        let words: Vec<&str> = words.iter().map(String::as_str).collect();
        let output = tool(&words);
        assert_eq!(output.status.code(), Some(status), "{words:?}");
        assert!(output.stdout.is_empty(), "{words:?}");
        let line = text(&output.stderr);
        assert!(
            line.starts_with("lomkhvide: ") && line.ends_with(told) && line.matches('\n').count() == 1,
            "{words:?}: {line}"
        );
    }
}

#[test]
fn help() {
    let output = tool(&["--help"]);
    assert!(output.status.success());
    for command in [
        "list FILE",
        "check FILE",
        "records FILE",
        "explain FILE",
        "explain FILE LOCATOR",
        "draw FILE [LOCATOR]",
        "stakes LIST FILE",
    ] {
        assert!(text(&output.stdout).contains(command), "{command}");
    }
}

/// Whoever reads the answer may stop early.
#[test]
fn cut_off() {
    let file = folder("cut-off").join("long.bin");
    fs::write(&file, input(4, &graph(4, 60))).unwrap();
    for command in ["draw", "records", "explain", "list", "check"] {
        let mut child = Command::new(env!("CARGO_BIN_EXE_lomkhvide"))
            .args([command, file.to_str().unwrap()])
            .stdout(Stdio::piped())
            .stderr(Stdio::piped())
            .spawn()
            .unwrap();
        drop(child.stdout.take());
        let output = child.wait_with_output().unwrap();
        assert!(output.stderr.is_empty(), "{}", text(&output.stderr));
        assert_ne!(output.status.code(), Some(101), "{command}");
    }
}

/// The file from standard input.
#[test]
fn from_standard_input() {
    let course = fs::read(file("course_run.bin")).unwrap();
    let mut child = Command::new(env!("CARGO_BIN_EXE_lomkhvide"))
        .args(["list", "-"])
        .stdin(Stdio::piped())
        .stdout(Stdio::piped())
        .spawn()
        .unwrap();
    child.stdin.take().unwrap().write_all(&course).unwrap();
    let output = child.wait_with_output().unwrap();
    assert!(text(&output.stdout).ends_with("\nend 13 0 1 0 1\n"));
}

/// The names of the file of stakes are shown, and can be typed.
#[test]
fn names() {
    let data = runs().join("../stakes_runs/data");
    let told = |words: &[&str]| {
        let output = tool_in(&data, words);
        assert!(matches!(output.status.code(), Some(0 | 3)), "{}", text(&output.stderr));
        String::from_utf8(output.stdout).unwrap()
    };
    let explained = told(&["explain", "input.bin", "1/0/00000005/0"]);
    assert!(explained.contains("\n  owner 0 (karst), stake 2: record 5 shares it, by 13 > 9 > 5\n"), "{explained}");
    assert!(told(&["draw", "--svg", "input.bin"]).contains(">karst</text>"));
    let short = told(&["explain", "--first", "7", "--reach", "dam north, quarry", "input.bin", "1/0/00000005/0"]);
    let by_number = told(&["explain", "--first", "7", "--reach", "1,3", "input.bin", "1/0/00000005/0"]);
    assert_eq!(short, by_number);
    assert!(
        short
            .lines()
            .last()
            .unwrap()
            .starts_with("Ring of those who can be reached: owners 1 (dam north), 3 (quarry) hold stake 10, "),
        "{short}"
    );
    let wrong = tool_in(&data, &["explain", "--reach", "krast", "input.bin", "1/0/00000005/0"]);
    assert_eq!(wrong.status.code(), Some(1));
    assert!(text(&wrong.stderr).contains("'krast' is no owner: owners 0 (karst), 1 (dam north)"), "{}", text(&wrong.stderr));
}

/// A name may hold anything; a drawing stays well formed.
#[test]
fn names_that_look_like_tags() {
    let folder = folder("tags");
    let mut stakes = vec![1, 0, 0, 0];
    stakes.extend(b"<script>&\"\n\xff\0\0\0\0");
    stakes.extend(1u64.to_le_bytes());
    fs::write(folder.join("stakes"), &stakes).unwrap();
    fs::write(folder.join("input"), [255]).unwrap();
    let output = tool_in(&folder, &["draw", "--svg", "input"]);
    assert!(text(&output.stdout).contains(">&lt;script&gt;&amp;\"??</text>"), "{}", text(&output.stderr));
    let page = tool_in(&folder, &["draw", "input"]);
    assert!(!text(&page.stdout).contains("<script>&"), "a name ends no script");
}

/// Every answer names the committee, and where it came from.
#[test]
fn the_committee_is_named() {
    let folder = folder("committees");
    let course = fs::read(file("heads_for_stake.bin")).unwrap();
    let own: Vec<u8> = [&[255], &course[1 + 8 * course[0] as usize..]].concat();
    let own = if course[0] == 255 { course } else { own };
    fs::write(folder.join("input.bin"), own).unwrap();
    fs::write(folder.join("members"), "karst 5\ndam north 3\nquarry 3\na 2\nb 2\nc 1\nd 1\n").unwrap();
    let commands: [&[&str]; 6] = [&["list"], &["check"], &["records"], &["explain"], &["draw"], &["draw", "--svg"]];
    let named = |told: &str, more: &[&str]| {
        for words in commands {
            let output = tool_in(&folder, &[words, more, &["input.bin"]].concat());
            assert!(text(&output.stdout).contains(told), "{words:?}: {}", text(&output.stdout).lines().next().unwrap());
        }
    };
    named("Committee: 7 owners, stake 17 in all, quorum from 12; the course committee, since no file stakes is here.", &[]);
    fs::write(folder.join("stakes"), []).unwrap();
    named("; the course committee, since the file stakes is empty.", &[]);
    let made = tool_in(&folder, &["stakes", "members", "other"]);
    assert!(made.status.success(), "{}", text(&made.stderr));
    named("Committee: 7 owners, stake 17 in all, quorum from 12; from the file of stakes other.", &["--stakes", "other"]);
    fs::rename(folder.join("other"), folder.join("stakes")).unwrap();
    named("; from the file of stakes stakes.", &[]);
    assert!(text(&tool(&["list", &file("course_run.bin")]).stdout).contains("; in the file.\n"));
    let absent = tool_in(&folder, &["list", "--stakes", "absent", "input.bin"]);
    assert_eq!(absent.status.code(), Some(2), "a file that is named has to be there");
}

/// A file of stakes from a list and back; where the list is bad nothing is written, and what is wrong is said by line.
#[test]
fn files_of_stakes() {
    let folder = folder("stakes-files");
    let list = "karst 2\ndam north 3\nquarry 7\n";
    fs::write(folder.join("members"), list).unwrap();
    let made = tool_in(&folder, &["stakes", "members", "stakes"]);
    assert_eq!(
        text(&made.stdout),
        "stakes is written.\nCommittee: 3 owners, stake 12 in all, quorum from 9; from the file of stakes stakes.\n"
    );
    assert_eq!(text(&tool_in(&folder, &["stakes", "stakes"]).stdout), list);
    let good = fs::read(folder.join("stakes")).unwrap();
    for (list, reason) in [
        ("karst 2\nquarry 3\nkarst 4\n", "line 3: the name 'karst' is repeated: line 1 has it"),
        ("karst 2\nquarry\n", "line 2: a name and a stake, not 'quarry'"),
        ("karst none\n", "line 1: 'none' is no stake for 'karst'"),
        ("karst 0\n", "line 1: '0' is no stake for 'karst'"),
        ("a name of 17 bytes 1\n", "line 1: the name 'a name of 17 bytes' has 18 bytes, and 16 is the most"),
        ("", "no member: an empty file would stand for the course committee"),
        ("a 9223372036854775807\nb 1\n", "refused 4, the total stake is over 2^63 - 1"),
        (&(0..129).map(|i| format!("m{i} 1\n")).collect::<String>(), "129 members, and 128 is the most"),
    ] {
        fs::write(folder.join("members"), list).unwrap();
        for place in ["stakes", "new"] {
            let bad = tool_in(&folder, &["stakes", "members", place]);
            assert_eq!(bad.status.code(), Some(2));
            assert!(bad.stdout.is_empty());
            assert!(
                text(&bad.stderr).contains(reason) && text(&bad.stderr).contains("nothing is written"),
                "{}",
                text(&bad.stderr)
            );
        }
        assert_eq!(fs::read(folder.join("stakes")).unwrap(), good, "the file that was there stays");
        assert!(!folder.join("new").exists());
    }
    assert_eq!(fs::read_dir(&folder).unwrap().count(), 2, "no other file is left");
    let mut twice = good.clone();
    twice[2 + 26 + 2..2 + 26 + 18].copy_from_slice(&good[4..20]);
    fs::write(folder.join("stakes"), twice).unwrap();
    fs::write(folder.join("input"), [255]).unwrap();
    let refused = tool_in(&folder, &["explain", "input"]);
    assert!(
        text(&refused.stderr).ends_with("file stakes: 'karst' is the name of record 1 and of record 2 (57)\n"),
        "{}",
        text(&refused.stderr)
    );
}

/// `explain` of a whole file: final, pending with whom to ring, counted, never sent.
#[test]
fn every_change() {
    let told = tool(&["explain", &file("mistyped_vote.bin")]);
    let expected = "2 final, 0 not yet final, 2 voted for and never sent.
Committee: 4 owners, stake 4 in all, quorum from 3; in the file.

Final:
  1/0/00000005/0 to 1, shares 0 to 1 of record 5: 4 blocks certify it, stake 4 of 4; a station may load it.

Voted for and never sent:
  1/0/00000005/2: record 5 has no share there; owners 1, 2, 3 hold stake 3 of 4: final, and there is nothing to load.
  1/0/00000055/0: nobody sent its block; owners 1, 2, 3 hold stake 3 of 4: final, and there is nothing to load.
";
    assert_eq!(text(&told.stdout), expected);
    let told = tool(&["explain", &file("owner_twice.bin")]);
    assert!(text(&told.stdout).contains(
        "\n  1/0/00000005/0, share 0 of record 5: its votes hold stake 2 of 4, quorum begins at 3. \
         Ring: owner 2 holds stake 1, the fewest who bring it to quorum.\n"
    ));
}

/// Long answers are cut, say so, and are whole with `--all`.
#[test]
fn long_answers() {
    let path = folder("long-answers").join("long.bin");
    let records = graph(9, 12);
    fs::write(&path, input(9, &records)).unwrap();
    let path = path.to_str().unwrap();
    let (first, whole) = (tool(&["explain", path]), tool(&["explain", "--all", path]));
    assert!(text(&first.stdout).contains(" more; --all shows them\n"));
    assert!(!text(&whole.stdout).contains("--all") && whole.stdout.len() > first.stdout.len());
    let locator = format!("{}", records[9].reference().at(0));
    let (first, whole) = (tool(&["explain", path, &locator]), tool(&["explain", "--all", path, &locator]));
    assert!(text(&first.stdout).ends_with(" are left out, and --all shows them.\n"), "{}", text(&first.stdout));
    assert_eq!(text(&first.stdout).matches(" certifies:\n").count(), 7, "one block of each of seven owners");
    assert_eq!(text(&whole.stdout).matches(" certifies:\n").count(), 81);
}

/// Each record in words.
#[test]
fn records_in_words() {
    let told = tool(&["records", &file("share_offsets.bin")]);
    let expected = "
record 5, byte 273: round 1, owner 0, digest 00000005
  includes records 1, 2, 3, 4
  statement 0 accepts nothing: the empty range 0..0 of record 1
  statement 1 shares 5 bytes
  statement 2 rejects offset 0 of record 2
  statement 3 shares 6 bytes
";
    assert!(text(&told.stdout).contains(expected), "{}", text(&told.stdout));
    assert!(text(&told.stdout).starts_with("16 records are stored, 0 refused.\nCommittee: 4 owners"));
    let told = tool(&["records", &file("refusals.bin")]);
    assert!(text(&told.stdout).contains("\nrecord 20, byte 3854, round 1, owner 0, digest 00000014: refused 30, "));
}

/// The same facts for a script.
#[test]
fn json() {
    let (course, refusals) = (file("course_run.bin"), file("refusals.bin"));
    for words in [
        vec!["list", &course],
        vec!["check", &refusals],
        vec!["records", &refusals],
        vec!["explain", &course],
        vec!["explain", &course, "1/0/00000005/0"],
        vec!["explain", "--withdrawing", &course, "1/0/00000005/0"],
        vec!["draw", &course],
    ] {
        let output = tool(&[&words[..], &["--json"]].concat());
        let told = text(&output.stdout);
        assert!(told.lines().count() == 1 && Json::read(told.trim()).is_some(), "{words:?}: {told}");
        assert!(
            told.starts_with("{\"refused\":{\"count\":") && told.contains("\"committee\":{\"source\":\"file\""),
            "{words:?}"
        );
    }
    let told = tool(&["explain", "--json", &course, "1/0/00000005/0"]);
    for fact in [
        "\"final\":true",
        "\"certifying\":[11,12,13]",
        "\"certified\":{\"owners\":[0,1,2],\"stake\":3,\"quorum\":true}",
        "{\"record\":9,\"owner\":1,\"says\":\"accepts it\"}",
        "\"processedBy\":10",
        "\"loadable\":true",
        "{\"owner\":0,\"way\":[11,8,5]}",
    ] {
        assert!(text(&told.stdout).contains(fact), "{fact}: {}", text(&told.stdout));
    }
    let told = tool(&["check", "--json", &refusals]);
    assert!(
        text(&told.stdout)
            .contains("{\"record\":20,\"byte\":3854,\"round\":1,\"author\":0,\"digest\":\"00000014\",\"number\":30,")
    );
}
