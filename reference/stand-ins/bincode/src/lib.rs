//! Stand-in: writes as the stand-in of serde does, and reads nothing.

use serde::Serialize;

#[derive(Debug)]
pub struct Error;

pub fn serialize<T: Serialize>(t: &T) -> Result<Vec<u8>, Error> {
    let mut out = Vec::new();
    t.put(&mut out);
    Ok(out)
}

pub fn deserialize<T>(_bytes: &[u8]) -> Result<T, Error> {
    Err(Error)
}
