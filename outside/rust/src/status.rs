//! How many items of a pool there are.
/// How many items of a pool there are. Each thread counts its own, and the sums are read while
/// threads go on: they are exact if none is within a call.
#[derive(Clone, Copy, Debug, PartialEq, Eq)]
#[non_exhaustive]
pub struct Status {
    /// How many items there may be at once. A pool that grows has room for so many, and makes more.
    pub items: usize,
    /// How many are made or being made, in use or free.
    pub made: usize,
    /// How many are in use, or being made or checked. One that was forgotten is in use.
    pub in_use: usize,
    /// How many threads and tasks wait for one.
    pub waiting: usize,
}

impl Status {
    /// Creates the status of a pool where nobody waits. Of what threads counted while it was read,
    /// more may have been returned than pulled.
    pub(crate) fn new([items, made, in_use]: [usize; 3]) -> Status {
        let in_use = (in_use as isize).max(0) as usize;
        Status { items, made, in_use, waiting: 0 }
    }
}
