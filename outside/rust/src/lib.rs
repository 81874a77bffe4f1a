#![doc = include_str!("overview.md")]
#![warn(missing_docs)]
#![deny(unsafe_code)]
#![forbid(unsafe_op_in_unsafe_fn)]

#[cfg_attr(test, path = "../unit_tests/atomics.rs")]
#[allow(unsafe_code)]
mod atomics;
#[allow(unsafe_code)]
mod library;
#[allow(unsafe_code)]
mod once;
#[allow(unsafe_code)]
mod places;
mod pools;
mod status;
#[cfg(test)]
#[path = "../unit_tests/interleavings.rs"]
mod tests;
#[cfg(all(test, not(feature = "portable")))]
#[allow(unsafe_code)]
#[path = "../unit_tests/portable.rs"]
mod tests_of_portable;
#[allow(unsafe_code)]
mod threads;

#[doc = include_str!("../README.md")]
pub mod design {}

pub use pools::guard::{Guard, Source};
pub use pools::lazy::{Builder, BuilderOf, Event, Manager, PullError};
pub use pools::lazy::{LazyOwnedReusable, LazyPool, LazyReusable};
pub use pools::linear::{LinearObjectPool, LinearOwnedReusable, LinearReusable};
pub use pools::none::{NoneObjectPool, NoneReusable};
pub use pools::or_else::OrElse;
pub use pools::pool::{NewError, OwnedReusable, Pool, Reset, Reusable};
pub use pools::stack::{MutexObjectPool, MutexOwnedReusable, MutexReusable, SpinLock, Stack};
pub use pools::stack::{SpinLockObjectPool, SpinLockOwnedReusable, SpinLockReusable};
pub use pools::stack::{StackGuard, StackObjectPool};
pub use status::Status;
use std::sync::{Mutex, MutexGuard, PoisonError};

/// Locks, also after a panic under the lock.
fn lock<V>(mutex: &Mutex<V>) -> MutexGuard<'_, V> {
    mutex.lock().unwrap_or_else(PoisonError::into_inner)
}

/// Ends the process: a place is of another pool. It doesn't unwind, so a guard's end needs one way.
#[cold]
extern "C" fn refuse() -> ! {
    panic!("a place of another pool")
}
