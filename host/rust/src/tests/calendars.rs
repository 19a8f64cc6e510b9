//! The blast calendar.

use crate::*;

const MONDAY: u64 = 345_600;

#[test]
fn calendars() {
    let window = |start, end| Window { start, end };
    let calendar = Calendar::new(&[window(0, 3600), window(3600, 7200), window(600_000, 604_800)]);
    assert_eq!(calendar.is_open(MONDAY), Ok(false));
    assert_eq!(calendar.is_open(MONDAY + 7200), Ok(true));
    assert_eq!(calendar.next_open(MONDAY - 1), Ok(Some(MONDAY + 7200)));
    assert_eq!(calendar.next_open(0), Ok(Some(0)));
    let full = Calendar::new(&[window(0, 604_800)]);
    assert_eq!(full.is_open(0), Ok(false));
    assert_eq!(full.next_open(0), Ok(None));
    assert_eq!(Calendar::new(&[]).next_open(u64::MAX), Ok(Some(u64::MAX)));
    assert_eq!(Calendar::new(&[window(284_400, 284_415)]).next_open(u64::MAX - 15), Ok(Some(u64::MAX)));
    assert_eq!(Calendar::new(&[window(284_400, 284_416)]).next_open(u64::MAX - 15), Ok(None));
    assert_eq!(Calendar::new(&[window(5, 5)]).is_open(0), Err(Refusal::BrokenCalendar));
    assert_eq!(Calendar::new(&[window(5, 604_801)]).next_open(0), Err(Refusal::BrokenCalendar));
    assert_eq!(Calendar::new(&[window(5, 9), window(8, 12)]).next_open(0), Err(Refusal::BrokenCalendar));
}

/// The example of docs/OPERATING.md: Monday 10:00 to 10:30 and Friday 14:00 to 15:00; on Friday, 20 November 2026, at 14:20 UTC loading waits until 15:00.
#[test]
fn readme_calendar() {
    let calendar = Calendar::new(&[Window { start: 36_000, end: 37_800 }, Window { start: 396_000, end: 399_600 }]);
    assert_eq!(calendar.is_open(1_795_184_400), Ok(false));
    assert_eq!(calendar.next_open(1_795_184_400), Ok(Some(1_795_186_800)));
}

#[test]
fn every_length_of_a_calendar() {
    let windows: Vec<Window> = (0..70).map(|i| Window { start: 7200 * i, end: 7200 * i + 1800 }).collect();
    let bytes = Calendar::new(&windows).as_bytes().to_vec();
    for length in 0..=bytes.len() {
        let calendar = Calendar::from_bytes(bytes[..length].to_vec());
        let (is_open, next_open) = match length {
            0 => (Ok(true), Ok(Some(MONDAY))),
            _ if length % 16 != 0 || length > 1024 => (Err(Refusal::BrokenCalendar), Err(Refusal::BrokenCalendar)),
            _ => (Ok(false), Ok(Some(MONDAY + 1800))),
        };
        assert_eq!(calendar.is_open(MONDAY), is_open, "{length} bytes");
        assert_eq!(calendar.next_open(MONDAY), next_open, "{length} bytes");
    }
}
