//! Slips, read and written.

use super::{locator, record, store};
use crate::*;

#[test]
fn slips() {
    // one owner: its second block shares, and its third one includes that
    let committee = Committee::new(&[1].map(Stake)).unwrap();
    let first = record(0, 1, &[], &[]);
    let second = record(1, 2, &first[..48], &[b"gain"]);
    let mut third = record(2, 3, &second[..48], &[]);
    let own = [&second[..48], &[1, 0, 0, 0, 0, 0, 0, 0, 0, 0, 0]].concat();
    let above = [&third[..48], &[1, 0, 0, 0, 0, 0, 0, 0, 0, 1, 0, 0]].concat();
    let head = |count| [&[0][..], &second[..48], &[0; 8], &[count, 0]].concat();
    let slip = [head(2), own.clone(), above.clone()].concat();
    let all = [&first[..], &second, &third];
    assert_eq!(committee.read_slip(&slip, &all), Ok(2));
    assert_eq!(committee.read_slip(&[head(1), above.clone()].concat(), &[&third, &second]), Ok(1));
    assert_eq!(committee.read_slip(&[head(1), own.clone()].concat(), &[&second]), Ok(1));
    assert_eq!(committee.read_slip(&[head(1), above.clone()].concat(), &[&third]), Err(Refusal::SlipRecordMissing));
    assert_eq!(committee.read_slip(&[head(2), above, own].concat(), &all), Err(Refusal::SlipNotHeld), "not ascending");
    assert_eq!(committee.read_slip(&head(0), &all), Err(Refusal::SlipNotHeld), "no certifying block");
    assert_eq!(committee.read_slip(&slip, &[&second, &third, &third]), Err(Refusal::SlipNotHeld), "two of one reference");
    assert_eq!(committee.read_slip(&[], &all), Err(Refusal::SlipReadingUnknown), "no first byte");
    for length in 1..slip.len() {
        assert_eq!(committee.read_slip(&slip[..length], &all), Err(Refusal::SlipNotHeld), "{length} bytes of the slip");
    }
    let mut new = slip.clone();
    new[0] = 1;
    assert_eq!(committee.read_slip(&new, &all), Ok(2), "nobody withdraws");
    assert_eq!(committee.read_slip(&new, &[&second, &third]), Err(Refusal::SlipRecordMissing), "the ancestry is not whole");
    new[0] = 2;
    assert_eq!(committee.read_slip(&new, &all), Err(Refusal::SlipReadingUnknown), "another first byte");
    third[48] = 1;
    assert_eq!(committee.read_slip(&slip, &[&second, &third]), Err(Refusal::SlipNotHeld), "a marked block");
}

#[test]
fn written_slips() {
    // a sole owner's share, an accept of it, and a block that includes both
    let committee = Committee::new(&[1].map(Stake)).unwrap();
    let first = record(0, 1, &[], &[]);
    let shares = record(1, 2, &first[..48], &[b"gain"]);
    let mut accepts = record(1, 3, &first[..48], &[]);
    accepts[51] = 1;
    accepts.push(1);
    accepts.extend(&shares[..48]);
    accepts.extend([0; 8]);
    let last = record(2, 4, &[&first[..48], &accepts[..48], &shares[..48]].concat(), &[]);
    let store = store(&[first, shares.clone(), accepts.clone(), last.clone()]);
    let mut digest = [0; 32];
    digest[3] = 2;
    let share = locator(1, 0, digest, 0);
    let mut slip = vec![0];
    slip.extend(share.to_bytes());
    slip.extend([3, 0]);
    for (block, path) in [(&shares, &[][..]), (&accepts, &[]), (&last, &[1])] {
        slip.extend(&block[..48]);
        slip.extend([1, 0, 0, 0, 0, 0, 0, 0, 0, path.len() as u8, 0]);
        slip.extend(path);
    }
    for room in 0..slip.len() + 20 {
        let mut out = vec![9; room];
        let told = committee.write_slip(&store, &share, Reading::Old, &mut out);
        if room < slip.len() {
            assert_eq!(told, Err(Refusal::TooShortToWrite), "{room} bytes");
            assert_eq!(out, vec![9; room]);
        } else {
            assert_eq!(told, Ok(slip.len()), "{room} bytes");
            assert_eq!(out[..slip.len()], slip);
            assert_eq!(out[slip.len()..], vec![9; room - slip.len()]);
        }
    }
    let mut out = vec![9; slip.len()];
    assert_eq!(committee.write_slip(&store, &share, Reading::Withdrawing, &mut out), Ok(slip.len()));
    slip[0] = 1;
    assert_eq!(out, slip, "nobody withdraws");
    let other = locator(1, 0, digest, 1);
    assert_eq!(committee.write_slip(&store, &other, Reading::Withdrawing, &mut []), Err(Refusal::SlipNotHeld));
    assert_eq!(committee.write_slip(&store, &other, Reading::Old, &mut []), Err(Refusal::SlipNotHeld));
    assert_eq!(committee.write_slip(&store[..15], &other, Reading::Old, &mut []), Err(Refusal::StoreNotInOrder));
}
