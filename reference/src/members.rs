//! Files of stakes, and the readable list of one: a line for each member, in order of authority number, its name and its stake.

use crate::model::record::number;
use crate::model::stakes_file::chain;

/// A record: the index of the next one, a name, zero padded, and a stake.
pub fn record(next: u16, name: &[u8], stake: u64) -> Vec<u8> {
    let mut padded = [0; 16];
    padded[..name.len()].copy_from_slice(name);
    [&next.to_le_bytes()[..], &padded, &stake.to_le_bytes()].concat()
}

/// A file of records in this order, the chain of which begins at an index.
pub fn in_file(first: u16, records: &[Vec<u8>]) -> Vec<u8> {
    [&first.to_le_bytes()[..], &records.concat()].concat()
}

/// The file of these names and stakes, one record after the other.
pub fn file(members: &[(impl AsRef<[u8]>, u64)]) -> Vec<u8> {
    let next = |i: usize| if i + 1 < members.len() { i as u16 + 2 } else { 0 };
    let records = members.iter().enumerate().map(|(i, (name, stake))| record(next(i), name.as_ref(), *stake));
    in_file(!members.is_empty() as u16, &records.collect::<Vec<_>>())
}

/// The members along the chain of a file, as a list.
pub fn to_list(file: &[u8]) -> Result<String, String> {
    let records = chain(file).ok_or("the chain is broken")?;
    let name = |record: &[u8]| String::from_utf8_lossy(&record[2..18]).trim_end_matches('\0').to_string();
    Ok(records.iter().map(|record| format!("{} {}\n", name(record), number(&record[18..]))).collect())
}
