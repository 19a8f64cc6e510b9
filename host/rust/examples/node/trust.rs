//! The place where digests and signatures are checked. **What stands here is the example's own and checks nothing**: fill it in before a
//! node or a station is used, and then say so in `CHECKED`.
//!
//! The engine takes a record's digest and author as given: document 01 leaves digests, signatures and keys to the host. So whatever is
//! fed without this check is counted, and then
//!
//! - anybody who reaches the node votes in every owner's name: blocks made up for owners of quorum stake make any change final, and a slip
//!   of them convinces every station of that committee;
//! - one reference stands for two contents: the first to come is stored and the other is refused (23), so two nodes hold different
//!   payloads under one locator, both find it final, and two stations load different programs;
//! - a record that was damaged on its way is stored, and the right one is refused from then on (23);
//! - records of an epoch that was closed can be fed into the new one.
//!
//! A check keeps all four out if the digest is a cryptographic one of everything else in the record, and the signature is the author's,
//! over that digest and the number of the epoch. Signatures travel beside the records, or in an envelope around them: what the engine is
//! fed is the record alone.

use lomkhvide::Record;

/// Whether [`verified`] checks anything. While it does not, the program warns.
pub const CHECKED: bool = false;

/// Whether the digest is that of the record's content, and the author has signed it in that epoch; else why it is not taken.
pub fn verified(_record: &Record, _epoch: u64) -> Result<(), String> {
    Ok(())
}
