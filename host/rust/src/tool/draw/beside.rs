//! The lines of another count beside those of the engine: a mistake of the course page, say, with what comes of it.

use std::collections::BTreeMap;

use super::super::Fault;
use super::super::input::read_file;
use super::super::json::{Json, object};
use super::super::list::list;
use super::super::run::Run;

/// A line's place in the list: events by record, statement and offset, then final locators, then the end.
type Place = (u8, u64, u64, String, u64);

/// A line of each side, as far as there is one.
type Row = [Option<String>; 2];

pub struct Beside {
    /// What the other count is, by the name of its file.
    pub name: String,
    rows: Vec<(Place, Row)>,
}

impl Beside {
    pub fn new(run: &Run, file: &str) -> Result<Beside, Fault> {
        let other = String::from_utf8_lossy(&read_file(file)?).into_owned();
        let mut own = Vec::new();
        list(run, &mut own)?;
        let own = String::from_utf8_lossy(&own).into_owned();
        let mut rows: BTreeMap<Place, Row> = BTreeMap::new();
        for (side, lines) in [own, other].iter().enumerate() {
            for line in lines.lines() {
                let Some(place) = place(line) else {
                    return Err(Fault::Unreadable(format!("{file}: '{line}' is no line of listing")));
                };
                rows.entry(place).or_default()[side] = Some(line.into());
            }
        }
        let name = file.rsplit('/').next().unwrap_or(file).to_string();
        Ok(Beside { name, rows: rows.into_iter().collect() })
    }

    /// The record that a row belongs to, none for those after the last; and both lines.
    pub fn json(&self) -> Json {
        let row = |(place, [own, other]): &(Place, Row)| {
            let record = (place.0 == 0).then_some(place.1);
            Json::List(vec![record.into(), own.as_deref().into(), other.as_deref().into()])
        };
        object([("name", self.name.as_str().into()), ("rows", self.rows.iter().map(row).collect())])
    }
}

fn place(line: &str) -> Option<Place> {
    let words: Vec<&str> = line.split(' ').collect();
    let number = |i: usize| words.get(i).and_then(|word| word.parse::<u64>().ok());
    match words[0] {
        "refused" => Some((0, number(1)?, 0, String::new(), 0)),
        "processed" | "late" | "unknown" => Some((0, number(1)?, number(2)?, String::new(), number(3)?)),
        "final" => Some((1, number(1)?, number(2)?, words.get(3)?.to_string(), number(4)?)),
        "end" => Some((2, 0, 0, String::new(), 0)),
        _ => None,
    }
}
