//! What a station is handed for a change: a slip, the records that travel with it, the payload.

use std::fs;
use std::path::Path;

use lomkhvide::Locator;

use crate::files::{Access, Files, Told, at, replace};
use crate::node::READING;

/// Writes the files `slip`, `records` and `payload` of a final change into a folder. The node's own files are only read.
pub fn hand_over(state: &Path, name: &str, folder: &Path) -> Told<()> {
    let locator: Locator = name.parse().map_err(|error| format!("{name}: {error}"))?;
    let engine = Files::open(state, Access::Read)?.engine()?;
    let told = |refusal| format!("{locator}: {refusal}");
    let slip = engine.slip(&locator, READING).map_err(told)?;
    let payload = engine.payload(&locator).map_err(told)?;
    let mut records = engine.slip_records(&slip).map_err(told)?;
    // A station compares the payload with the share's own record, which the slip need not name.
    let share = engine.records().map(|(_, record)| record).find(|record| record.reference() == locator.reference());
    records.extend(share.filter(|share| !records.contains(share)));
    let mut framed = Vec::new();
    for record in &records {
        framed.extend((record.as_bytes().len() as u32).to_le_bytes());
        framed.extend(record.as_bytes());
    }
    at(folder, fs::create_dir_all(folder))?;
    replace(folder, "slip", slip.as_bytes())?;
    replace(folder, "records", &framed)?;
    replace(folder, "payload", payload)?;
    println!("{locator}: a slip of {} certifying blocks, {} records", slip.certifiers().len(), records.len());
    Ok(())
}
