//! The inputs of `listing` that are checked in, what it has to print on them by the model, and the tables of docs/COURSE.md.

mod counted;
mod course;
pub(crate) mod input;
mod refused;
pub(crate) mod stakes;

use std::fs;
use std::path::Path;

use crate::model::committee::{Committee, COURSE};
use crate::model::feed::{State, EVENT_BYTES};
use crate::model::finality::{Graph, Reading};
use crate::model::listing::{listing, mistaken_listing};
use crate::model::loading;
use crate::model::mistake::Mistake;
use crate::model::record::{Locator, Reference};
use crate::model::ring;

const ROOT: &str = concat!(env!("CARGO_MANIFEST_DIR"), "/..");

/// An input by its name, as its bytes.
type Named = (&'static str, Vec<u8>);

/// Names inputs by the functions that make them.
macro_rules! named {
    ($($make:ident),* $(,)?) => { vec![$((stringify!($make), $make())),*] };
}
use named;

/// Every input, in the order in which `listing_runs` runs them.
fn inputs() -> Vec<Named> {
    [course::inputs(), refused::inputs(), counted::inputs()].concat()
}

/// Every file that is made, by its place below crates/.
fn files(inputs: &[Named]) -> Vec<(String, Vec<u8>)> {
    let course_run = &inputs[0].1;
    let args: String = inputs.iter().map(|(name, _)| format!("{name}.bin\n")).collect();
    let stdout: String = inputs.iter().map(|(name, input)| format!("== {name}.bin\n{}", listing(input, &[]))).collect();
    let mut files = vec![
        ("listing/stdin".into(), course_run.clone()),
        ("listing/stdout".into(), listing(course_run, &[]).into_bytes()),
        ("listing_runs/args".into(), args.into_bytes()),
        ("listing_runs/stdout".into(), stdout.into_bytes()),
    ];
    files.extend(inputs.iter().map(|(name, input)| (format!("listing_runs/data/{name}.bin"), input.clone())));
    files.extend(files_of_stakes());
    files
}

/// Those of `stakes_runs`: its input with the file `stakes`, then with every other one, and last with one that is absent.
fn files_of_stakes() -> Vec<(String, Vec<u8>)> {
    let (input, good, mut tables) = (stakes::input(), stakes::good(), stakes::tables());
    let mut files: Vec<_> =
        tables.iter().map(|(name, table)| (format!("stakes_runs/data/{name}.stakes"), table.clone())).collect();
    tables.push(("absent", vec![]));
    let args: String = tables.iter().map(|(name, _)| format!("{name}.stakes\n")).collect();
    let runs: String = tables.iter().map(|(name, table)| format!("== {name}.stakes\n{}", listing(&input, table))).collect();
    let stdout = format!("== input.bin\n{}{runs}", listing(&input, &good));
    files.extend([
        ("stakes_runs/data/input.bin".into(), input),
        ("stakes_runs/data/stakes".into(), good),
        ("stakes_runs/args".into(), args.into_bytes()),
        ("stakes_runs/stdout".into(), stdout.into_bytes()),
    ]);
    files
}

/// The two columns of the table below an exercise's heading: the lines of `listing` and the mistaken ones.
fn columns(page: &str, name: &str) -> [String; 2] {
    let exercise = page.split_once(&format!("`{name}.bin`\n")).map_or("", |(_, rest)| rest);
    let table = exercise.split_once("\n01:").map_or("", |(table, _)| table);
    let rows = table.lines().filter(|line| line.starts_with('|')).skip(2);
    let mut columns = [String::new(), String::new()];
    for row in rows {
        for (column, cell) in columns.iter_mut().zip(row.split('|').skip(1)) {
            let line = cell.trim_matches([' ', '`']);
            if !line.is_empty() {
                *column += &format!("{line}\n");
            }
        }
    }
    columns
}

/// What is wrong with an exercise of the course page, if anything.
fn exercise(page: &str, name: &str, input: &[u8], mistake: Mistake) -> Result<(), String> {
    let lines = [listing(input, &[]), mistaken_listing(input, &[], Some(mistake))];
    if lines[0] == lines[1] {
        return Err(format!("{name}: the mistake shows nowhere"));
    }
    if columns(page, name) != lines {
        return Err(format!("docs/COURSE.md has other lines for {name}:\n{}\nand mistaken\n{}", lines[0], lines[1]));
    }
    Ok(())
}

/// The rows of the table below a heading, without its head.
fn rows<'a>(page: &'a str, heading: &str) -> Vec<&'a str> {
    let section = page.split_once(&format!("\n## {heading}")).map_or("", |(_, rest)| rest);
    let section = section.split_once("\n## ").map_or(section, |(own, _)| own);
    section.lines().filter(|line| line.starts_with('|')).skip(2).collect()
}

/// What is wrong with the exercise about whom to ring, if anything: in the course committee owners 2, 3 and 6 have voted.
fn ringing(page: &str) -> Result<(), String> {
    let committee = Committee::new(&COURSE).unwrap();
    let rows = rows(page, "6. ");
    for row in &rows {
        let cells: Vec<&str> = row.split('|').map(str::trim).collect();
        let reachable = cells[1].split(", ").fold(0, |set, owner| set | 1u128 << owner.parse::<u32>().unwrap_or(127));
        let right = match ring::by_sets(&committee, 0b1001100, reachable) {
            Ok((owners, stake)) => {
                let owners = (0..128).filter(|i| owners >> i & 1 == 1).map(|i| i.to_string());
                [owners.collect::<Vec<_>>().join(", "), stake.to_string()]
            }
            Err(number) => [number.to_string(), String::new()],
        };
        if cells[2..4] != right {
            return Err(format!("docs/COURSE.md has another answer for those who can be reached, {}: {right:?}", cells[1]));
        }
    }
    if rows.is_empty() {
        return Err("docs/COURSE.md has no table of whom to ring".into());
    }
    Ok(())
}

/// What is wrong with the exercise about withdrawing, if anything: the course run with a reject in one of its records.
fn withdrawing(page: &str) -> Result<(), String> {
    let committee = Committee::new(&[1; 4]).unwrap();
    let rows = rows(page, "7. ");
    for row in &rows {
        let cells: Vec<&str> = row.split('|').map(str::trim).collect();
        let blocks = course::withdrawn(cells[1].parse().ok());
        let mut state = State::default();
        for block in &blocks {
            state
                .feed(&committee, 65_536, EVENT_BYTES, &block.encode())
                .map_err(|number| format!("a record is refused: {number}"))?;
        }
        let graph = Graph::new(&committee, &state.stores);
        let certify = |reading| {
            let finality = graph.finality_in(reading, &Locator::new(blocks[4].reference, 0));
            let number = |certifier: &Reference| 1 + blocks.iter().position(|block| block.reference == *certifier).unwrap();
            let mut records: Vec<usize> = finality.certifying.iter().map(number).collect();
            records.sort();
            let records: Vec<String> = records.iter().map(usize::to_string).collect();
            (if records.is_empty() { "none".into() } else { records.join(", ") }, finality.is_final)
        };
        let (old, new) = (certify(Reading::Old), certify(Reading::Withdrawing));
        let right = [old.0, new.0, if new.1 { "yes" } else { "no" }.into()];
        if cells[2..5] != right {
            return Err(format!("docs/COURSE.md has another answer for a reject in record {}: {right:?}", cells[1]));
        }
    }
    if rows.is_empty() {
        return Err("docs/COURSE.md has no table of withdrawing".into());
    }
    Ok(())
}

/// What is wrong with the exercise about a gain table and its program, if anything.
fn following(page: &str) -> Result<(), String> {
    let committee = Committee::new(&[1]).unwrap();
    let rows = rows(page, "8. ");
    for row in &rows {
        let cells: Vec<&str> = row.split('|').map(str::trim).collect();
        let mut state = State::default();
        for block in course::following(cells[1]) {
            state
                .feed(&committee, 65_536, EVENT_BYTES, &block.encode())
                .map_err(|number| format!("a record is refused: {number}"))?;
        }
        let table = *loading::stored_shares(&state.stores).last().expect("the table");
        let right = loading::is_loadable(Reading::Old, &Graph::new(&committee, &state.stores), &state.stores, &table);
        if cells[2] != if right { "yes" } else { "no" } {
            return Err(format!("docs/COURSE.md has another answer for the payload {}: {right}", cells[1]));
        }
    }
    if rows.len() < 8 {
        return Err("docs/COURSE.md has no table of payloads".into());
    }
    Ok(())
}

/// Writes a file, or checks that it is what is made.
fn file(place: &str, content: &[u8], check: bool) -> Result<(), String> {
    let path = Path::new(ROOT).join("crates").join(place);
    if check {
        return match fs::read(&path) {
            Ok(found) if found == content => Ok(()),
            _ => Err(format!("crates/{place} is not what is made")),
        };
    }
    fs::write(&path, content).map_err(|e| format!("{}: {e}", path.display()))
}

/// Writes or checks every file, and checks the course page: what came of each.
pub fn run(check: bool) -> Vec<Result<(), String>> {
    let inputs = inputs();
    let page = fs::read_to_string(Path::new(ROOT).join("docs/COURSE.md")).unwrap_or_default();
    let exercises = course::MISTAKES.iter().map(|(name, mistake)| {
        let (_, input) = inputs.iter().find(|(made, _)| made == name).expect("an input of this name");
        exercise(&page, name, input, *mistake)
    });
    let files = files(&inputs);
    exercises
        .chain([ringing(&page), withdrawing(&page), following(&page)])
        .chain(files.iter().map(|(place, content)| file(place, content, check)))
        .collect()
}
