//! The byte at which a record that the engine found malformed departs from the form of document 01, part "Blocks".

/// The header, and the time after that of edition 2.
const HEADER: usize = 56;
const TIME: usize = 16;

const REFERENCE: usize = 48;
const LOCATOR: usize = 56;
const MOST_INCLUDES: usize = 256;
const MOST_STATEMENTS: usize = 1_024;

/// A byte of the record, from 0, and what is wrong with it. A record that ends too soon is wrong at its end.
pub type Place = (usize, String);

/// Where a record is malformed.
pub fn malformed(bytes: &[u8]) -> Option<Place> {
    match read(bytes) {
        Ok(end) if end == bytes.len() => None,
        Ok(end) => {
            let after = bytes.len() - end;
            Some((
                end,
                if after == 1 {
                    "1 byte after the last statement".into()
                } else {
                    format!("{after} bytes after the last statement")
                },
            ))
        }
        Err(place) => Some(place),
    }
}

/// Where the record ends by its own numbers.
fn read(bytes: &[u8]) -> Result<usize, Place> {
    let mut at = header(bytes)?;
    for i in 0..number(bytes, 49) {
        at = part(bytes, at, REFERENCE, &format!("include {i}"))?;
    }
    for i in 0..number(bytes, 51) {
        at = statement(bytes, at, i)?;
    }
    Ok(at)
}

/// Where the includes begin.
fn header(bytes: &[u8]) -> Result<usize, Place> {
    let mut end = part(bytes, 0, HEADER, "the header")?;
    if bytes[48] > 1 {
        return Err((48, format!("the epoch mark is {}, not 0 or 1", bytes[48])));
    }
    for (at, name, most) in [(49, "includes", MOST_INCLUDES), (51, "statements", MOST_STATEMENTS)] {
        if number(bytes, at) > most {
            return Err((at, format!("{} {name}, and {most} is the most", number(bytes, at))));
        }
    }
    if bytes[53] != 0 && bytes[53] != 2 {
        return Err((53, format!("the edition is {}, not 0 or 2", bytes[53])));
    }
    if let Some(at) = (54..HEADER).find(|at| bytes[*at] != 0) {
        return Err((at, format!("{} where a zero stands", bytes[at])));
    }
    if bytes[53] == 2 {
        end = part(bytes, HEADER, TIME, "the time")?;
        if let Some(at) = (HEADER + 8..end).find(|at| bytes[*at] != 0) {
            return Err((at, "the time is over 2^64 - 1 nanoseconds".into()));
        }
    }
    Ok(end)
}

/// Where a statement ends.
fn statement(bytes: &[u8], at: usize, i: usize) -> Result<usize, Place> {
    let body = part(bytes, at, 1, &format!("statement {i}"))?;
    let (share, locator) = (format!("the share of statement {i}"), format!("the locator of statement {i}"));
    match bytes[at] {
        0 => {
            let payload = part(bytes, body, 2, &share)?;
            part(bytes, payload, number(bytes, body), &share)
        }
        1 => part(bytes, body, LOCATOR, &locator),
        2 => {
            let flag = part(bytes, body, LOCATOR, &locator)?;
            let end = part(bytes, flag, 1, &format!("the reject of statement {i}"))?;
            match bytes[flag] {
                0 => Ok(end),
                1 => part(bytes, end, LOCATOR, &format!("the second locator of statement {i}")),
                other => {
                    Err((flag, format!("statement {i}, a reject: {other} where 0 or 1 says whether a second locator follows")))
                }
            }
        }
        3 => part(bytes, body, LOCATOR + 8, &format!("the range of statement {i}")),
        kind => Err((at, format!("statement {i} is of kind {kind}, and the kinds are 0 to 3"))),
    }
}

/// Where a part of so many bytes ends.
fn part(bytes: &[u8], at: usize, length: usize, name: &str) -> Result<usize, Place> {
    if bytes.len() - at < length {
        return Err((bytes.len(), format!("the record ends inside {name}, {} bytes too soon", at + length - bytes.len())));
    }
    Ok(at + length)
}

fn number(bytes: &[u8], at: usize) -> usize {
    u16::from_le_bytes([bytes[at], bytes[at + 1]]) as usize
}
