//! The pools that keep what comes back in a list behind a lock, by the names of
//! lockfree-object-pool 0.1.6. Nothing here is proved. It is safe Rust, and tested. In Rattle these
//! pools are proved (`crates/lockfree_object_pool` of this repository).
use crate::pools::pool::Reset;
use std::fmt::{self, Debug, Formatter};
use std::ops::{Deref, DerefMut};
use std::sync::{Arc, Mutex, PoisonError, TryLockError};
use std::{hint::spin_loop, mem::ManuallyDrop};

/// A list of values behind a lock.
pub trait Stack<T> {
    #[doc(hidden)]
    fn with<A>(&self, call: impl FnOnce(&mut Vec<T>) -> A) -> A;
}

impl<T> Stack<T> for Mutex<Vec<T>> {
    fn with<A>(&self, call: impl FnOnce(&mut Vec<T>) -> A) -> A {
        call(&mut self.lock().unwrap_or_else(PoisonError::into_inner))
    }
}

/// A list behind a lock whose taker asks again and again.
#[derive(Debug)]
pub struct SpinLock<T>(Mutex<Vec<T>>);

impl<T> Default for SpinLock<T> {
    fn default() -> SpinLock<T> {
        SpinLock(Mutex::default())
    }
}

impl<T> Stack<T> for SpinLock<T> {
    fn with<A>(&self, call: impl FnOnce(&mut Vec<T>) -> A) -> A {
        loop {
            match self.0.try_lock() {
                Ok(mut list) => return call(&mut list),
                Err(TryLockError::Poisoned(list)) => return call(&mut list.into_inner()),
                Err(TryLockError::WouldBlock) => spin_loop(),
            }
        }
    }
}

/// A pool that keeps what comes back, and makes an item where nothing is kept.
pub struct StackObjectPool<T, S> {
    kept: S,
    init: Box<dyn Fn() -> T + Send + Sync>,
    reset: Reset<T>,
}

/// An item of a stack pool that is held. Its end resets it and keeps it.
#[must_use = "the item is returned at once"]
pub struct StackGuard<T, S: Stack<T>, P: Deref<Target = StackObjectPool<T, S>>> {
    pool: P,
    /// It is taken at the guard's end, and nowhere else.
    data: Option<T>,
}

/// A stack pool over a mutex.
///
/// ```
/// use kundratu_pool::MutexObjectPool;
///
/// let pool = MutexObjectPool::<u32>::new(Default::default, |number| *number = 0);
/// *pool.pull() += 5;
/// assert_eq!(*pool.pull(), 0);
/// ```
pub type MutexObjectPool<T> = StackObjectPool<T, Mutex<Vec<T>>>;
/// An item that was pulled under a borrow of its [`MutexObjectPool`].
pub type MutexReusable<'a, T> = StackGuard<T, Mutex<Vec<T>>, &'a MutexObjectPool<T>>;
/// An item that was pulled with an owner of its [`MutexObjectPool`].
pub type MutexOwnedReusable<T> = StackGuard<T, Mutex<Vec<T>>, Arc<MutexObjectPool<T>>>;
/// A stack pool whose threads wait for each other in a loop.
pub type SpinLockObjectPool<T> = StackObjectPool<T, SpinLock<T>>;
/// An item that was pulled under a borrow of its [`SpinLockObjectPool`].
pub type SpinLockReusable<'a, T> = StackGuard<T, SpinLock<T>, &'a SpinLockObjectPool<T>>;
/// An item that was pulled with an owner of its [`SpinLockObjectPool`].
pub type SpinLockOwnedReusable<T> = StackGuard<T, SpinLock<T>, Arc<SpinLockObjectPool<T>>>;

impl<T, S: Stack<T> + Default> StackObjectPool<T, S> {
    /// Creates an empty pool, of items that `init` makes, and `reset` resets as they come back.
    pub fn new<R, I>(init: I, reset: R) -> Self
    where
        R: Fn(&mut T) + Send + Sync + 'static,
        I: Fn() -> T + Send + Sync + 'static,
    {
        StackObjectPool { kept: S::default(), init: Box::new(init), reset: Box::new(reset) }
    }
}

impl<T, S: Stack<T>> StackObjectPool<T, S> {
    /// Returns the item that came back last, or a new one if none is kept.
    pub fn pull(&self) -> StackGuard<T, S, &Self> {
        StackGuard::new(self, self.item())
    }

    /// As [`pull`](StackObjectPool::pull), with a guard that keeps the pool.
    pub fn pull_owned(self: &Arc<Self>) -> StackGuard<T, S, Arc<Self>> {
        StackGuard::new(Arc::clone(self), self.item())
    }

    fn item(&self) -> ManuallyDrop<T> {
        let kept = self.kept.with(Vec::pop);
        ManuallyDrop::new(kept.unwrap_or_else(&self.init))
    }
}

impl<T, S: Stack<T>, P: Deref<Target = StackObjectPool<T, S>>> StackGuard<T, S, P> {
    /// Creates the guard of a value, which goes to the pool at the guard's end.
    pub fn new(pool: P, data: ManuallyDrop<T>) -> Self {
        StackGuard { pool, data: Some(ManuallyDrop::into_inner(data)) }
    }
}

impl<T, S: Stack<T>, P: Deref<Target = StackObjectPool<T, S>>> Deref for StackGuard<T, S, P> {
    type Target = T;

    fn deref(&self) -> &T {
        self.data.as_ref().expect("it is there until the end")
    }
}

impl<T, S: Stack<T>, P: Deref<Target = StackObjectPool<T, S>>> DerefMut for StackGuard<T, S, P> {
    fn deref_mut(&mut self) -> &mut T {
        self.data.as_mut().expect("it is there until the end")
    }
}

impl<T, S: Stack<T>, P: Deref<Target = StackObjectPool<T, S>>> Drop for StackGuard<T, S, P> {
    fn drop(&mut self) {
        if let Some(mut data) = self.data.take() {
            (self.pool.reset)(&mut data);
            self.pool.kept.with(|list| list.push(data));
        }
    }
}

impl<T: Debug, S: Stack<T>, P: Deref<Target = StackObjectPool<T, S>>> Debug
    for StackGuard<T, S, P>
{
    fn fmt(&self, f: &mut Formatter<'_>) -> fmt::Result {
        (**self).fmt(f)
    }
}

impl<T, S: Stack<T>> Debug for StackObjectPool<T, S> {
    fn fmt(&self, f: &mut Formatter<'_>) -> fmt::Result {
        let kept = self.kept.with(|list| list.len());
        f.debug_struct("StackObjectPool").field("kept", &kept).finish_non_exhaustive()
    }
}
