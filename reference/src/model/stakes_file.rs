//! 02, "Each network's own stakes": the file `stakes`.

use std::collections::BTreeSet;

use super::committee::{Committee, COURSE};
use super::record::number;

pub const LONGEST: usize = 65_536;
pub const RECORD: usize = 26;

/// The committee that a file holds, or 56, 57, 1 to 4. An absent file is an empty one.
pub fn load(file: &[u8]) -> Result<Committee, u64> {
    if file.is_empty() {
        return Committee::new(&COURSE);
    }
    let records = chain(file).ok_or(56u64)?;
    let names: BTreeSet<&[u8]> = records.iter().map(|record| &record[2..18]).collect();
    if names.len() < records.len() || !names.iter().all(|name| is_name(name)) {
        return Err(57);
    }
    Committee::new(&records.iter().map(|record| number(&record[18..])).collect::<Vec<_>>())
}

/// The records along the chain; none where the file or the chain is broken.
pub fn chain(file: &[u8]) -> Option<Vec<&[u8]>> {
    if file.len() > LONGEST || file.len() < 2 || (file.len() - 2) % RECORD != 0 {
        return None;
    }
    let records: Vec<&[u8]> = file[2..].chunks(RECORD).collect();
    let (mut met, mut found) = (BTreeSet::new(), Vec::new());
    let mut index = number(&file[..2]) as usize;
    while index != 0 {
        let record = records.get(index - 1)?;
        if !met.insert(index) {
            return None;
        }
        found.push(*record);
        index = number(&record[..2]) as usize;
    }
    Some(found)
}

/// Zero padded, not empty.
fn is_name(name: &[u8]) -> bool {
    let text = name.iter().take_while(|byte| **byte != 0).count();
    text > 0 && name[text..].iter().all(|byte| *byte == 0)
}
