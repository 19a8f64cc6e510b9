//! The blast calendar, from document 02, change ten: a week is a row of seconds, looked at one by one.

use super::lent::Answer;
use super::record::number;

pub const WEEK: u64 = 604_800;
pub const MOST_WINDOWS: usize = 64;

/// "Second 0 of the week is second 0 of the count since 1970 plus 345,600, a Monday"
pub const MONDAY: u64 = 345_600;

/// For each second of the week the seconds from it to the next that is open, none where the windows fill the week.
pub struct Calendar {
    wait: Vec<Option<u64>>,
}

impl Calendar {
    /// "Over 64 windows, or any overlapping or out of order or range, answer 59", and so do bytes that are not whole windows.
    pub fn new(bytes: &[u8]) -> Result<Calendar, u64> {
        let windows: Vec<(u64, u64)> =
            bytes.chunks(16).map(|window| window.split_at(window.len() / 2)).map(|(a, b)| (number(a), number(b))).collect();
        let in_range = windows.iter().all(|(start, end)| start < end && *end <= WEEK);
        let in_order = (0..windows.len()).all(|i| windows[..i].iter().all(|(_, end)| *end <= windows[i].0));
        if bytes.len() % 16 != 0 || windows.len() > MOST_WINDOWS || !in_range || !in_order {
            return Err(59);
        }
        let mut open = vec![true; WEEK as usize];
        windows.iter().for_each(|(start, end)| open[*start as usize..*end as usize].fill(false));
        // backwards through two weeks, since a wait may go over a week's end
        let mut wait = vec![None; WEEK as usize];
        let mut next = None;
        for second in (0..wait.len()).rev().chain((0..wait.len()).rev()) {
            next = if open[second] { Some(0) } else { next.map(|wait| wait + 1) };
            wait[second] = next;
        }
        Ok(Calendar { wait })
    }

    fn wait(&self, time: u64) -> Option<u64> {
        let second = (time as i128 - MONDAY as i128).rem_euclid(WEEK as i128);
        self.wait[second as usize]
    }

    pub fn is_open(&self, time: u64) -> bool {
        self.wait(time) == Some(0)
    }

    /// "or none if the windows fill the week or the count would pass 2^64 - 1"
    pub fn next_open(&self, time: u64) -> Option<u64> {
        time.checked_add(self.wait(time)?)
    }
}

// ---- the host's calls

pub fn is_open(calendar: &[u8], time: u64) -> Answer {
    Ok(Calendar::new(calendar)?.is_open(time) as u64)
}

pub fn next_open(calendar: &[u8], time: u64, found: &mut [u8]) -> Answer {
    let calendar = Calendar::new(calendar)?;
    if found.len() != 8 {
        return Err(40);
    }
    let second = calendar.next_open(time);
    if let Some(second) = second {
        found.copy_from_slice(&second.to_le_bytes());
    }
    Ok(second.is_some() as u64)
}
