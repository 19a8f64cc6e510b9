//! Stand-in: digests are set from the record, so nothing is hashed.

pub trait Digest {
    fn update(&mut self, data: impl AsRef<[u8]>);
}
