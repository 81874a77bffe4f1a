//! The pool that keeps nothing, by the names of lockfree-object-pool 0.1.6.
use std::fmt::{self, Debug, Formatter};
use std::ops::{Deref, DerefMut};
use std::sync::Arc;

/// A pool that makes an item at each pull and keeps none.
///
/// ```
/// use kundratu_pool::NoneObjectPool;
///
/// let pool = NoneObjectPool::<u32>::new(Default::default);
/// *pool.pull() += 5;
/// assert_eq!(*pool.pull(), 0);
/// ```
pub struct NoneObjectPool<T> {
    init: Box<dyn Fn() -> T + Send + Sync>,
}

/// An item of a [`NoneObjectPool`], which is dropped with it.
#[derive(Debug)]
#[must_use = "the item is dropped at once"]
pub struct NoneReusable<T> {
    data: T,
}

impl<T> NoneObjectPool<T> {
    /// Creates a pool of items that `init` makes.
    pub fn new<I: Fn() -> T + Send + Sync + 'static>(init: I) -> Self {
        NoneObjectPool { init: Box::new(init) }
    }

    /// Returns a new item.
    pub fn pull(&self) -> NoneReusable<T> {
        NoneReusable::new((self.init)())
    }

    /// Returns a new item.
    pub fn pull_owned(self: &Arc<Self>) -> NoneReusable<T> {
        self.pull()
    }
}

impl<T> NoneReusable<T> {
    /// Creates the item of this value.
    pub fn new(data: T) -> Self {
        NoneReusable { data }
    }
}

impl<T> Deref for NoneReusable<T> {
    type Target = T;

    fn deref(&self) -> &T {
        &self.data
    }
}

impl<T> DerefMut for NoneReusable<T> {
    fn deref_mut(&mut self) -> &mut T {
        &mut self.data
    }
}

impl<T> Debug for NoneObjectPool<T> {
    fn fmt(&self, f: &mut Formatter<'_>) -> fmt::Result {
        f.debug_struct("NoneObjectPool").finish_non_exhaustive()
    }
}
