//! The atomics of this crate's code, and marks of its other steps. Tests have their own, by which they
//! choose the order of steps.
pub(crate) use std::sync::atomic::*;

/// Looks for a place of the library.
#[inline(always)]
pub(crate) fn look<P>(look: impl FnOnce() -> Option<P>) -> Option<P> {
    look()
}

/// Comes before a place is returned to the library, a lock of its handle, and a box that is set.
pub(crate) fn before(_: Step) {}

/// A step that isn't an atomic's.
pub(crate) enum Step {
    Returns,
    Locks,
    Sets,
}
