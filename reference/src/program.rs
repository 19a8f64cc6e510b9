//! The program `listing` beside the model: generated inputs, whole and damaged, and every line that it prints.

use std::io::Write;
use std::path::{Path, PathBuf};
use std::process::{Command, Output, Stdio};

use crate::compare::{same, Outcome};
use crate::damage::damaged;
use crate::generate;
use crate::inputs::input::{accept, share, Input};
use crate::inputs::stakes;
use crate::list::hex;
use crate::model::listing::listing;
use crate::rng::Rng;

const PROGRAM: &str = concat!(env!("CARGO_MANIFEST_DIR"), "/../crates/listing/out/listing");

/// Whether the program has been built.
pub fn is_there() -> bool {
    std::fs::exists(PROGRAM).unwrap_or(false)
}

/// The folder that the program is run in, where its file of stakes stands.
const FOLDER: &str = concat!(env!("CARGO_MANIFEST_DIR"), "/target/listing");

/// Input n of a run: a list as `listing` reads it; every second one with its framing, its stakes or its records damaged. Some ask for a
/// file of stakes, which may be damaged too, or absent.
pub fn input(seed: u64, n: u64) -> (Vec<u8>, Option<Vec<u8>>) {
    let list = generate::timed_list(seed, n);
    let mut rng = Rng::new(seed ^ n.wrapping_mul(0x9e3779b97f4a7c15));
    let mut input = list.to_listing();
    if rng.once_in(8) {
        input[0] = *rng.pick(&[255, 0, 1, 128, 129, rng.clone().word() as u8]);
    }
    if rng.once_in(8) {
        // Only the front, where the stakes stand.
        let front = input.len().min(1 + 8 * list.stakes.len());
        input.splice(..front, damaged(&input[..front], &mut rng));
    }
    if rng.once_in(4) {
        input = damaged(&input, &mut rng);
    }
    if rng.once_in(8) {
        input.extend((0..rng.below(4)).map(|_| 0));
    }
    if !rng.once_in(4) {
        return (input, rng.once_in(4).then(|| generate::stakes_file::file(seed, n)));
    }
    // The list's own stakes in a file, or any file, or none.
    let front = input.len().min(1 + 8 * list.stakes.len());
    input.splice(..front, [255]);
    let file = match rng.below(8) {
        0 => None,
        1 | 2 => Some(generate::stakes_file::file(seed, n)),
        3 => Some(damaged(&generate::stakes_file::good(&list.stakes), &mut rng)),
        _ => Some(generate::stakes_file::good(&list.stakes)),
    };
    (input, file)
}

/// Where the file of stakes stands, taken away.
fn no_stakes() -> std::io::Result<PathBuf> {
    let path = Path::new(FOLDER).join("stakes");
    std::fs::create_dir_all(FOLDER)?;
    match std::fs::symlink_metadata(&path) {
        Err(_) => {}
        Ok(there) if there.is_dir() => std::fs::remove_dir(&path)?,
        Ok(_) => std::fs::remove_file(&path)?,
    }
    Ok(path)
}

/// Puts the file of stakes into the folder, or takes it away.
fn put_stakes(file: Option<&[u8]>) -> std::io::Result<()> {
    let path = no_stakes()?;
    file.map_or(Ok(()), |bytes| std::fs::write(path, bytes))
}

/// The program over an input, in the folder as it stands: what it wrote, and how it ended.
fn ran(input: &[u8], stdout: Stdio) -> std::io::Result<Output> {
    let mut program = Command::new(PROGRAM);
    program.current_dir(FOLDER).stdin(Stdio::piped()).stdout(stdout).stderr(Stdio::piped());
    let mut child = program.spawn()?;
    let mut stdin = child.stdin.take().unwrap();
    let sent = input.to_vec();
    let writer = std::thread::spawn(move || drop(stdin.write_all(&sent)));
    let out = child.wait_with_output();
    writer.join().unwrap();
    out
}

/// Holds what the program wrote to the model's lines.
fn held(of: &str, out: Output, right: String) -> Outcome {
    let got = String::from_utf8_lossy(&out.stdout).into_owned();
    if got == right && out.status.success() {
        return Ok(());
    }
    let line =
        got.lines().zip(right.lines()).position(|(a, b)| a != b).unwrap_or(got.lines().count().min(right.lines().count()));
    let at = |text: &str| text.lines().nth(line).map(str::to_string);
    same(&format!("line {} of the listing of {of}", line + 1), "program", at(&got), at(&right))?;
    Err(format!("the program ended with {} on {of}", out.status))
}

/// Runs the program on an input, beside a file of stakes, and holds its output to the model's.
pub fn run(input: &[u8], stakes: Option<&[u8]>) -> Outcome {
    put_stakes(stakes).map_err(|e| e.to_string())?;
    let out = ran(input, Stdio::piped()).map_err(|e| e.to_string())?;
    held(&format!("{}, stakes {:?}", hex(input), stakes.map(hex)), out, listing(input, stakes.unwrap_or(&[])))
}

// ---- what the system answers

/// A sole owner's records, as many as the store holds: shares with a vote between any two, so that each is a stretch of its own. The votes are for the
/// shares of the record before, so that these do not fill the table.
fn many_stretches() -> Vec<u8> {
    let mut input = Input::new(&[1]);
    let mut last = input.add(0, 0, &[], &[]);
    for round in 1..=8 {
        let said: Vec<_> = (0..134).flat_map(|i| [share(&[]), accept(last, 2 * i)]).collect();
        last = input.add(0, round, &[last], &said);
    }
    input.bytes
}

/// A sole owner's 20 blocks of 1,024 shares: over half a megabyte of lines.
fn many_lines() -> Vec<u8> {
    let mut input = Input::new(&[1]);
    let mut last = input.add(0, 0, &[], &[]);
    for round in 1..=20 {
        last = input.add(0, round, &[last], &vec![share(&[]); 1024]);
    }
    input.bytes
}

/// An output of more lines, or of more stretches, than fit at once.
fn long_output(name: &str, input: &[u8], finals: usize) -> Outcome {
    put_stakes(None).map_err(|e| e.to_string())?;
    let right = listing(input, &[]);
    let lines = right.lines().filter(|line| line.starts_with("final")).count();
    same(&format!("{name}: final lines"), "model", lines, finals)?;
    held(name, ran(input, Stdio::piped()).map_err(|e| e.to_string())?, right)
}

/// A file of stakes that there is and that cannot be read is broken: a folder, and a link that leads to itself.
fn unreadable(name: &str, put: fn(&Path) -> std::io::Result<()>) -> Outcome {
    let asked = || -> std::io::Result<Output> {
        put(&no_stakes()?)?;
        ran(&[255], Stdio::piped())
    };
    let out = asked().map_err(|e| e.to_string())?;
    held(name, out, "refused 0 56\nend 0 0 0 0 0\n".to_string())
}

/// A file of stakes that says it has no bytes, and gives them in two pieces: a named pipe.
fn in_pieces() -> Outcome {
    let asked = || -> std::io::Result<Output> {
        let path = no_stakes()?;
        Command::new("mkfifo").arg(&path).status()?;
        let writer = std::thread::spawn(move || -> std::io::Result<()> {
            let good = stakes::good();
            let mut pipe = std::fs::OpenOptions::new().write(true).open(path)?;
            pipe.write_all(&good[..30])?;
            std::thread::sleep(std::time::Duration::from_millis(50));
            pipe.write_all(&good[30..])
        });
        let out = ran(&stakes::input(), Stdio::piped());
        writer.join().unwrap()?;
        out
    };
    let out = asked().map_err(|e| e.to_string())?;
    held("stakes in pieces", out, listing(&stakes::input(), &stakes::good()))
}

/// Where reading or writing fails the program says so, and prints no line `end`; a pipe that nobody reads ends it.
fn failing(name: &str, out: std::io::Result<Output>, said: &str) -> Outcome {
    let out = out.map_err(|e| e.to_string())?;
    let (wrote, error) = (String::from_utf8_lossy(&out.stdout).into_owned(), String::from_utf8_lossy(&out.stderr).into_owned());
    same(&format!("{name}: the line end"), "program", wrote.contains("end"), false)?;
    if said.is_empty() {
        return same(&format!("{name}: success"), "program", out.status.success(), false);
    }
    same(&format!("{name}: what it says"), "program", error.starts_with(said), true)
}

/// Standard output as a pipe whose other end is closed.
fn closed() -> std::io::Result<Output> {
    put_stakes(None)?;
    let mut other = Command::new("true").stdin(Stdio::piped()).spawn()?;
    let pipe = other.stdin.take().unwrap();
    other.wait()?;
    ran(&many_lines(), pipe.into())
}

/// Standard output with no room, and standard input that is a folder.
fn full() -> std::io::Result<Output> {
    put_stakes(None)?;
    ran(&many_lines(), std::fs::OpenOptions::new().write(true).open("/dev/full")?.into())
}

fn no_input() -> std::io::Result<Output> {
    put_stakes(None)?;
    Command::new(PROGRAM).current_dir(FOLDER).stdin(std::fs::File::open(FOLDER)?).output()
}

/// Runs that hang on what the system answers, and on outputs that do not fit at once.
pub fn answers() -> Vec<Outcome> {
    let mut longer = stakes::good();
    longer.resize(65_537, 0);
    vec![
        long_output("1,072 stretches", &many_stretches(), 1072),
        long_output("20,480 shares", &many_lines(), 20_480),
        unreadable("stakes a folder", |path| std::fs::create_dir(path)),
        unreadable("stakes a link to itself", |path| std::os::unix::fs::symlink("stakes", path)),
        in_pieces(),
        run(&stakes::input(), Some(&longer)),
        failing("a closed output", closed(), ""),
        failing("an output with no room", full(), "standard output: "),
        failing("an input that is a folder", no_input(), "standard input: "),
        put_stakes(None).map_err(|e| e.to_string()),
    ]
}
