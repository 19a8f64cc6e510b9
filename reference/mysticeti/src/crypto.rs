//! Stand-in: a digest is what the record says. It travels as the block's signature, from which `BlockDigest::new` takes it.

use std::fmt;

use digest::Digest;
use serde::Serialize;

use crate::types::{AuthorityIndex, BaseStatement, BlockReference, EpochStatus, RoundNumber, StatementBlock, TimestampNs};

#[derive(Clone, Copy, Eq, Ord, PartialOrd, PartialEq, Default, Hash, Serialize)]
pub struct BlockDigest(pub [u8; 32]);

#[derive(Clone, Copy, Default, Serialize)]
pub struct SignatureBytes(pub [u8; 32]);

#[derive(Clone, Debug, Serialize)]
pub struct PublicKey(u64);

pub struct Signer;

impl BlockDigest {
    pub fn new(
        _authority: AuthorityIndex,
        _round: RoundNumber,
        _includes: &[BlockReference],
        _statements: &[BaseStatement],
        _meta_creation_time_ns: TimestampNs,
        _epoch_marker: EpochStatus,
        signature: &SignatureBytes,
    ) -> Self {
        BlockDigest(signature.0)
    }
}

impl AsRef<[u8]> for BlockDigest {
    fn as_ref(&self) -> &[u8] {
        &self.0
    }
}

impl fmt::Debug for BlockDigest {
    fn fmt(&self, f: &mut fmt::Formatter<'_>) -> fmt::Result {
        write!(f, "@{:?}", self.0)
    }
}

impl PublicKey {
    /// Signatures are left out of 01: each is taken.
    pub fn verify_block(&self, _block: &StatementBlock) -> Result<(), ()> {
        Ok(())
    }
}

impl Signer {
    pub fn new_for_test(n: usize) -> Vec<Self> {
        (0..n).map(|_| Signer).collect()
    }

    pub fn sign_block(
        &self,
        _authority: AuthorityIndex,
        _round: RoundNumber,
        _includes: &[BlockReference],
        _statements: &[BaseStatement],
        _meta_creation_time_ns: TimestampNs,
        _epoch_marker: EpochStatus,
    ) -> SignatureBytes {
        SignatureBytes::default()
    }

    pub fn public_key(&self) -> PublicKey {
        dummy_public_key()
    }
}

pub fn dummy_public_key() -> PublicKey {
    PublicKey(0)
}

pub trait AsBytes {
    fn as_bytes(&self) -> &[u8];
}

impl<const N: usize> AsBytes for [u8; N] {
    fn as_bytes(&self) -> &[u8] {
        self
    }
}

impl AsBytes for BlockDigest {
    fn as_bytes(&self) -> &[u8] {
        &self.0
    }
}

pub trait CryptoHash {
    fn crypto_hash(&self, state: &mut impl Digest);
}

impl CryptoHash for u64 {
    fn crypto_hash(&self, state: &mut impl Digest) {
        state.update(self.to_be_bytes());
    }
}

impl<T: AsBytes> CryptoHash for T {
    fn crypto_hash(&self, state: &mut impl Digest) {
        state.update(self.as_bytes());
    }
}
