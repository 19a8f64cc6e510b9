//! Stand-in: a value writes its fields in order, numbers as their little-endian bytes, a list or map after its length in 8 bytes.
//! The runs read the pending ranges of the Rust's aggregator from this. Nothing is read back.

use std::collections::{BTreeMap, HashMap};
use std::marker::PhantomData;

pub use serde_derive::{Deserialize, Serialize};

pub trait Serialize {
    fn put(&self, out: &mut Vec<u8>);
}

pub trait Deserialize<'a> {}
impl<T> Deserialize<'_> for T {}

macro_rules! numbers {
    ($($number:ty),*) => {
        $(impl Serialize for $number {
            fn put(&self, out: &mut Vec<u8>) {
                out.extend(self.to_le_bytes());
            }
        })*
    };
}
numbers!(u8, u64, u128);

impl Serialize for bool {
    fn put(&self, out: &mut Vec<u8>) {
        out.push(*self as u8);
    }
}

impl<T> Serialize for PhantomData<T> {
    fn put(&self, _out: &mut Vec<u8>) {}
}

impl<T: Serialize> Serialize for Option<T> {
    fn put(&self, out: &mut Vec<u8>) {
        self.is_some().put(out);
        if let Some(t) = self {
            t.put(out);
        }
    }
}

impl<T: Serialize> Serialize for Vec<T> {
    fn put(&self, out: &mut Vec<u8>) {
        (self.len() as u64).put(out);
        self.iter().for_each(|t| t.put(out));
    }
}

impl<T: Serialize, const N: usize> Serialize for [T; N] {
    fn put(&self, out: &mut Vec<u8>) {
        self.iter().for_each(|t| t.put(out));
    }
}

impl<K: Serialize, V: Serialize> Serialize for BTreeMap<K, V> {
    fn put(&self, out: &mut Vec<u8>) {
        (self.len() as u64).put(out);
        for (k, v) in self {
            k.put(out);
            v.put(out);
        }
    }
}

impl<K: Serialize, V: Serialize> Serialize for HashMap<K, V> {
    fn put(&self, out: &mut Vec<u8>) {
        (self.len() as u64).put(out);
        for (k, v) in self {
            k.put(out);
            v.put(out);
        }
    }
}
