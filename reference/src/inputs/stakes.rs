//! One input of member count 255, and the files of stakes that it is listed with.

use super::input::{accept, share, Input};
use super::{named, Named};
use crate::members::{file, in_file, record};
use crate::model::committee::{COURSE, MOST_STAKE};

pub fn tables() -> Vec<Named> {
    named![
        good,
        empty,
        chain_order,
        one_member,
        only_the_index,
        nobody_on_the_chain,
        one_byte,
        cut_in_a_record,
        stray_after_records,
        index_past_the_end,
        index_just_past,
        met_again,
        names_itself,
        chain_before_names,
        no_name,
        byte_after_zeros,
        name_twice,
        names_before_stakes,
        zero_stake,
        members_128,
        members_129,
        zero_past_128,
        total_over,
        most_records,
        too_long,
    ]
}

/// Four members accept a share and certify; the stake in its final line tells which stakes counted.
pub fn input() -> Vec<u8> {
    let mut i = Input::new(&COURSE);
    let first = i.round(0, 0..4, &[], &[]);
    let one = i.round(1, 0..4, &first, &[(0, vec![share(b"gain")])]);
    let votes = [1, 2, 3].map(|author| (author, vec![accept(one[0], 0)]));
    let two = i.round(2, 0..4, &one, &votes);
    i.round(3, 1..4, &two, &[]);
    i.add(4, 1, &first, &[]); // 21 but where there are five members
    i.bytes
}

/// Quorum from 12.
const MEMBERS: [(&str, u64); 4] = [("karst", 2), ("dam north", 3), ("dam south", 5), ("quarry", 7)];

/// So many members of stake 1.
fn owners(count: usize) -> Vec<(String, u64)> {
    (0..count).map(|i| (format!("owner {i}"), 1)).collect()
}

// ---- tables that are loaded

pub fn good() -> Vec<u8> {
    file(&MEMBERS)
}

fn empty() -> Vec<u8> {
    vec![]
}

/// The same members, stored in another order; a record off the chain has a bad name and an index past the end.
fn chain_order() -> Vec<u8> {
    let off = record(9, b"\0x", 0);
    in_file(4, &[record(0, b"quarry", 7), off, record(1, b"dam south", 5), record(5, b"karst", 2), record(3, b"dam north", 3)])
}

fn one_member() -> Vec<u8> {
    file(&[("sixteen letters.", 1)])
}

fn members_128() -> Vec<u8> {
    file(&owners(128))
}

/// As many records as fit, three of them on the chain.
fn most_records() -> Vec<u8> {
    let mut records = vec![record(0, b"", 0); 2520];
    records[0] = record(1260, b"quarry", 7);
    records[1259] = record(0, b"karst", 2);
    records[2519] = record(1, b"dam north", 3);
    in_file(2520, &records)
}

// ---- no members: 1

fn only_the_index() -> Vec<u8> {
    in_file(0, &[])
}

fn nobody_on_the_chain() -> Vec<u8> {
    in_file(0, &[record(0, b"karst", 2)])
}

// ---- a broken chain: 56

fn one_byte() -> Vec<u8> {
    vec![1]
}

fn cut_in_a_record() -> Vec<u8> {
    let mut bytes = good();
    bytes.pop();
    bytes
}

fn stray_after_records() -> Vec<u8> {
    [good(), vec![0]].concat()
}

fn index_past_the_end() -> Vec<u8> {
    in_file(1, &[record(3, b"karst", 2), record(0, b"quarry", 7)])
}

fn index_just_past() -> Vec<u8> {
    in_file(2, &[record(0, b"karst", 2)])
}

fn met_again() -> Vec<u8> {
    in_file(1, &[record(2, b"karst", 2), record(3, b"quarry", 7), record(2, b"dam north", 3)])
}

fn names_itself() -> Vec<u8> {
    in_file(1, &[record(1, b"karst", 2)])
}

/// 56 before 57: the first name is empty.
fn chain_before_names() -> Vec<u8> {
    in_file(1, &[record(9, b"", 2)])
}

fn too_long() -> Vec<u8> {
    [most_records(), record(0, b"", 0)].concat()
}

// ---- names: 57

fn no_name() -> Vec<u8> {
    in_file(1, &[record(2, b"karst", 2), record(0, b"", 7)])
}

fn byte_after_zeros() -> Vec<u8> {
    in_file(1, &[record(0, b"karst\0x", 2)])
}

fn name_twice() -> Vec<u8> {
    in_file(1, &[record(2, b"karst", 2), record(3, b"quarry", 7), record(0, b"karst", 3)])
}

/// 57 before 2: a stake is zero.
fn names_before_stakes() -> Vec<u8> {
    in_file(1, &[record(2, b"karst", 0), record(0, b"karst", 7)])
}

// ---- 2 to 4

fn zero_stake() -> Vec<u8> {
    let mut members = MEMBERS;
    members[3].1 = 0;
    file(&members)
}

fn members_129() -> Vec<u8> {
    file(&owners(129))
}

/// 2 before 3: the zero stake is the one after the 130th.
fn zero_past_128() -> Vec<u8> {
    let mut members = owners(131);
    members[130].1 = 0;
    file(&members)
}

fn total_over() -> Vec<u8> {
    file(&[("karst", MOST_STAKE), ("quarry", 1)])
}
