//! Stand-in: the one method that the Rust names; nothing calls it.

pub trait Rng {
    fn gen_range(&mut self, range: std::ops::Range<u64>) -> u64;
}
