//! The six mistakes of the course page (docs/COURSE.md). Who makes one counts as 01 has it but for that rule; `Committee::makes`
//! stands where they part.

#[derive(Clone, Copy, PartialEq, Eq, Debug)]
pub enum Mistake {
    /// Every owner counts as one.
    HeadsForStake,
    /// Stake is added again for an owner's second vote or second certifying block.
    OwnerTwice,
    /// A marked block's votes do not count, and reading stops there.
    MarkedBlock,
    /// The n-th share of a block has offset n: its shares are read as though they stood first.
    ShareOffsets,
    /// A range that ends where it starts votes on the item that starts there, as the Rust does.
    EmptyRange,
    /// Every final locator is listed, also one that names no stored share.
    NoShareListed,
}
