//! Blast calendars, good and damaged, on the engine and the model of 02: at both ends of every window, a second to each side.

use std::collections::BTreeMap;

use crate::compare::{same, same_bytes, Outcome};
use crate::engine;
use crate::model::calendar::{Calendar, MONDAY, MOST_WINDOWS, WEEK};
use crate::rng::Rng;

/// What the calendars of a run held.
#[derive(Default)]
pub struct Tally {
    pub refused: u64,
    pub full: u64,
    pub open: u64,
    pub closed: u64,
    pub none: u64,
    pub windows: BTreeMap<usize, u64>,
}

impl Tally {
    pub fn describe(&self) -> String {
        let many = |low, high| self.windows.range(low..=high).map(|(_, count)| count).sum::<u64>();
        format!(
            "calendars with no window {}, 1 to 63 {}, 64 {}; full weeks {}; refused {}\n\
             seconds open {}, closed {}; no open second {}",
            many(0, 0),
            many(1, MOST_WINDOWS - 1),
            many(MOST_WINDOWS, MOST_WINDOWS),
            self.full,
            self.refused,
            self.open,
            self.closed,
            self.none,
        )
    }
}

/// Ascending edges of at most n windows: apart, some of them touching, or one after the other through the whole week.
fn edges(rng: &mut Rng) -> Vec<u64> {
    let most = MOST_WINDOWS as u64;
    let count = *rng.pick(&[0, 1, 2, rng.clone().within(1, most), most, most]) as usize;
    let mut points: Vec<u64> = (0..2 * count).map(|_| rng.below(WEEK + 1)).collect();
    points.extend([0, WEEK]);
    points.sort();
    points.dedup();
    match rng.below(4) {
        // one after the other, from the week's first second or its end
        0 => {
            let windows = count.min(points.len() - 1);
            let from = if rng.once_in(2) { 0 } else { points.len() - 1 - windows };
            let mut run = points[from..=from + windows].to_vec();
            if windows > 0 && rng.once_in(2) {
                (run[0], run[windows]) = (0, WEEK);
            }
            run.windows(2).flatten().copied().collect()
        }
        // apart, from the week's first second on or up to its end
        1 => points.chunks_exact(2).take(count).flatten().copied().collect(),
        2 => points.rchunks_exact(2).take(count).collect::<Vec<_>>().into_iter().rev().flatten().copied().collect(),
        // some touch
        _ => {
            let mut all: Vec<[u64; 2]> = points.windows(2).map(|pair| [pair[0], pair[1]]).filter(|_| !rng.once_in(3)).collect();
            all.truncate(count);
            all.into_iter().flatten().collect()
        }
    }
}

/// A calendar's bytes, two times in three as they should be.
fn calendar(rng: &mut Rng) -> Vec<u8> {
    let mut words = edges(rng);
    let damaged = rng.once_in(3);
    if damaged {
        let at = rng.below(words.len() as u64 + 1) as usize;
        let any = *rng.pick(&[0, 1, WEEK - 1, WEEK, WEEK + 1, 1 << 32, u64::MAX, rng.clone().word()]);
        match rng.below(5) {
            0 => words.insert(at, any),
            1 if at < words.len() => words[at] = any,
            2 if at + 1 < words.len() => words.swap(at, at + 1),
            3 if at < words.len() => words[at] = words[at].wrapping_add(*rng.pick(&[1, 2, u64::MAX])),
            _ => words.extend((0..2 * MOST_WINDOWS as u64 + 2).map(|i| WEEK - 200 + i)),
        }
    }
    let mut bytes: Vec<u8> = words.iter().flat_map(|word| word.to_le_bytes()).collect();
    if damaged && rng.once_in(4) {
        bytes.truncate(rng.below(bytes.len() as u64 + 1) as usize);
    }
    bytes
}

/// The times to ask for: the ends of the windows with a second to each side, in several weeks, and any.
fn times(rng: &mut Rng, bytes: &[u8]) -> Vec<u64> {
    let last = u64::MAX - (u64::MAX - MONDAY) % WEEK;
    let mondays = [MONDAY - WEEK.min(MONDAY), MONDAY, MONDAY + WEEK * rng.below(1 << 20), last - WEEK, last];
    let mut times = vec![0, 1, MONDAY - 1, MONDAY, u64::MAX - 1, u64::MAX, rng.word(), u64::MAX - rng.below(WEEK)];
    for edge in bytes.chunks_exact(8).map(|word| u64::from_le_bytes(word.try_into().unwrap())).chain([0, WEEK]) {
        for monday in mondays {
            let time = monday.saturating_add(edge);
            times.extend([time.saturating_sub(1), time, time.saturating_add(1)]);
        }
        // the days of the first week, which began before the count
        times.push(edge.saturating_sub(WEEK - MONDAY));
    }
    times
}

/// Calendar n of a run.
pub fn compare(seed: u64, n: u64, tally: &mut Tally) -> Outcome {
    let mut rng = Rng::new(seed.wrapping_mul(0x9e37_79b9).wrapping_add(n));
    let bytes = calendar(&mut rng);
    let model = Calendar::new(&bytes);
    match &model {
        Err(_) => tally.refused += 1,
        Ok(model) => {
            *tally.windows.entry(bytes.len() / 16).or_default() += 1;
            tally.full += model.next_open(0).is_none() as u64;
        }
    }
    let mut asked = times(&mut rng, &bytes);
    if model.is_err() {
        asked.truncate(8);
    }
    for time in asked {
        ask(&bytes, model.as_ref(), time, tally).map_err(|text| format!("{text}\n  at {time} of {bytes:?}"))?;
    }
    Ok(())
}

/// Both questions for a time.
fn ask(bytes: &[u8], model: Result<&Calendar, &u64>, time: u64, tally: &mut Tally) -> Outcome {
    let is_open = model.map(|model| model.is_open(time)).map_err(|number| *number);
    same("is_open", "engine", engine::is_open(bytes, time), is_open.map(u64::from))?;
    let next = model.map(|model| model.next_open(time)).map_err(|number| *number);
    let mut found = [7; 8];
    same("next_open", "engine", engine::next_open(bytes, time, &mut found), next.map(|next| next.is_some() as u64))?;
    let right = next.ok().flatten().map_or([7; 8], u64::to_le_bytes);
    same_bytes("the second of next_open", &found, &right)?;
    match is_open {
        Ok(true) => tally.open += 1,
        Ok(false) => tally.closed += 1,
        Err(_) => {}
    }
    tally.none += (next == Ok(None)) as u64;
    Ok(())
}
