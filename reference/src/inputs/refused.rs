//! Committees, the framing of records, and records that are refused with 20 to 30.

use super::input::{accept, block, range, reference, reject, share, stakes, Input};
use super::{named, Named};
use crate::model::committee::{COURSE, MOST_STAKE};
use crate::model::record::{Locator, Statement};
use crate::model::store::MAX_LEN;

pub fn inputs() -> Vec<Named> {
    named![
        no_input,
        committee_empty,
        committee_zero_stake,
        committee_cut,
        committee_cut_stake,
        members_128,
        members_129,
        total_most,
        total_over,
        total_wraps,
        course_committee,
        stray_byte,
        stray_bytes,
        length_most,
        length_over,
        length_past_end,
        malformed,
        refusals,
    ]
}

// ---- committees

fn no_input() -> Vec<u8> {
    vec![]
}

fn committee_empty() -> Vec<u8> {
    let mut i = Input::new(&[]);
    i.add(0, 0, &[], &[]);
    i.bytes
}

fn committee_zero_stake() -> Vec<u8> {
    let mut many = [1; 129];
    many[128] = 0;
    stakes(&many)
}

/// Without its last bytes.
fn cut(bytes: Vec<u8>, by: usize) -> Vec<u8> {
    bytes[..bytes.len() - by].to_vec()
}

fn committee_cut() -> Vec<u8> {
    cut(stakes(&[1; 4]), 8)
}

/// The second stake has one byte: it is 1.
fn committee_cut_stake() -> Vec<u8> {
    cut(stakes(&[1; 2]), 7)
}

fn members_128() -> Vec<u8> {
    let mut i = Input::new(&[1; 128]);
    let first = i.round(0, 0..128, &[], &[]);
    i.add(127, 1, &first[..85], &[]);
    i.add(127, 1, &first[..86], &[]);
    i.add(128, 0, &[], &[]);
    i.bytes
}

fn members_129() -> Vec<u8> {
    stakes(&[1; 129])
}

fn total_most() -> Vec<u8> {
    let mut i = Input::new(&[MOST_STAKE - 1, 1]);
    i.add(0, 0, &[], &[]);
    i.add(1, 0, &[], &[]);
    i.bytes
}

fn total_over() -> Vec<u8> {
    stakes(&[MOST_STAKE, 1])
}

fn total_wraps() -> Vec<u8> {
    stakes(&[u64::MAX; 128])
}

/// Stake 11 of 17 is no quorum, 12 is one.
fn course_committee() -> Vec<u8> {
    let mut i = Input::new(&COURSE);
    let first = i.round(0, 0..8, &[], &[]);
    i.add(0, 1, &first[..3], &[]);
    i.add(0, 1, &[first[0], first[1], first[2], first[6]], &[]);
    i.bytes
}

// ---- the framing of records

/// One good record, and these bytes.
fn one_record_and(rest: &[u8]) -> Vec<u8> {
    let mut i = Input::new(&[1]);
    i.add(0, 0, &[], &[]);
    [&i.bytes, rest].concat()
}

fn stray_byte() -> Vec<u8> {
    one_record_and(&[0])
}

fn stray_bytes() -> Vec<u8> {
    one_record_and(&[56, 0, 0])
}

/// A record of 8,192 bytes: 56, an include of 48, and a share.
fn length_most() -> Vec<u8> {
    let mut i = Input::new(&[1]);
    let first = i.add(0, 0, &[], &[]);
    i.add(0, 1, &[first], &[share(&[0; 8192 - 56 - 48 - 3])]);
    i.bytes
}

/// 8,193 bytes, and a good record after them that is not read.
fn length_over() -> Vec<u8> {
    let mut i = Input::new(&[1]);
    i.raw(&[0; 8193]);
    i.add(0, 0, &[], &[]);
    i.bytes
}

fn length_past_end() -> Vec<u8> {
    let mut i = Input::new(&[1]);
    i.add(0, 0, &[], &[]);
    i.add(0, 0, &[], &[]);
    cut(i.bytes, 1)
}

// ---- refusals of records

/// Every record here but the first and the last is 20.
fn malformed() -> Vec<u8> {
    let mut i = Input::new(&[1]);
    let first = i.add(0, 0, &[], &[]);
    let reject_for = Statement::Reject(Locator::new(first, 0), Some(Locator::new(first, 1)));
    // A good record that was then spoilt.
    let mut spoilt = |statements: &[Statement], spoil: fn(&mut Vec<u8>)| {
        let mut record = block(i.next(0, 1), &[first], statements, false).encode();
        spoil(&mut record);
        i.raw(&record);
    };
    fn last_left_out(record: &mut Vec<u8>) {
        record.pop();
    }
    spoilt(&[], |record| record.clear());
    spoilt(&[], |record| record.truncate(55));
    spoilt(&[], |record| record[48] = 2); // the mark
    spoilt(&[], |record| record[55] = 1); // a zero byte
    spoilt(&[], |record| {
        record.truncate(56);
        record[49..51].copy_from_slice(&257u16.to_le_bytes()); // includes
    });
    spoilt(&[], |record| record[51..53].copy_from_slice(&1025u16.to_le_bytes())); // statements
    spoilt(&[], last_left_out);
    spoilt(&[], |record| record.push(0));
    spoilt(&[share(b"")], |record| record[51] = 2);
    spoilt(&[share(b"")], |record| record[51] = 0);
    spoilt(&[share(b"")], |record| {
        record.truncate(56 + 48);
        record.push(4); // no kind of statement
    });
    spoilt(&[share(b"four")], last_left_out);
    spoilt(&[accept(first, 0)], last_left_out);
    spoilt(&[range(first, 0, 1)], last_left_out);
    spoilt(&[reject(first, 0)], last_left_out);
    spoilt(&[reject(first, 0)], |record| *record.last_mut().unwrap() = 2);
    spoilt(&[reject_for.clone()], last_left_out);
    let mut of_unknown = block(reference(1, 1, 0), &[], &[], false).encode();
    of_unknown[48] = 2;
    i.raw(&of_unknown); // 20 before 21
    i.add(0, 1, &[first], &[share(b"four"), accept(first, 0), reject(first, 0), reject_for, range(first, 0, 1)]);
    i.bytes
}

/// Records refused with 21 to 30, each number in the order in which they are here, and what each check leaves alone.
fn refusals() -> Vec<u8> {
    let mut i = Input::new(&[1; 4]);
    let first = i.round(0, 0..4, &[], &[]);
    let zero = first[0];
    let unknown = reference(4, 0, 99);
    let not_stored = reference(0, 0, 99);
    let and = |more: &[_]| [&first[..], more].concat();
    i.add(4, 0, &[], &[]); // 21
    i.add(u64::MAX, 0, &[], &[]); // 21
    i.add(0, 0, &first, &[]); // 22
    i.add(0, 0, &[], &[share(b"")]); // 22
    i.raw(&block(zero, &[], &[], false).encode()); // 23
    i.add(0, 1, &and(&[unknown]), &[]); // 24
    i.add(0, 1, &and(&[reference(0, 1, 99)]), &[]); // 25
    i.add(0, 1, &and(&[reference(0, 2, 99), unknown]), &[]); // 25: include by include
    i.add(0, 1, &first, &[range(zero, 5, 4)]); // 26
    i.add(0, 1, &first, &[range(zero, 0, MAX_LEN)]); // 27
    i.add(0, 1, &first, &[range(zero, MAX_LEN, MAX_LEN)]); // 27, though it is empty
    i.add(0, 1, &first, &[accept(zero, u64::MAX)]); // 28
    i.add(0, 1, &first, &[accept(zero, u64::MAX), range(zero, 5, 4)]); // 28: statement by statement
    i.add(0, 1, &[first[0], first[1], first[0], first[1]], &[]); // 29: each author once
    i.add(0, 2, &first, &[]); // 29: these are of round 0
    i.add(0, 1, &and(&[not_stored]), &[]); // 30

    // several at once: the least number
    i.add(4, 0, &first, &[]); // 21 before 22
    i.raw(&block(zero, &first, &[], false).encode()); // 22 before 23
    i.add(0, 1, &[unknown], &[range(zero, 5, 4)]); // 24 before 26 and 29
    i.add(0, 1, &[not_stored], &[range(zero, 0, MAX_LEN)]); // 27 before 29
    i.add(0, 1, &[not_stored], &[]); // 29 before 30

    // taken: a repeated include, two includes of one author, a marked block of round 0, an empty range, rejects
    let marked = i.add_marked(0, 0, &[], &[]);
    i.add(0, 1, &and(&[zero, marked]), &[range(zero, MAX_LEN - 1, MAX_LEN - 1), reject(zero, u64::MAX)]);
    i.bytes
}
