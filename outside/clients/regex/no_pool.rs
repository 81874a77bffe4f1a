//! No pool: a cache that nobody takes. So each thread has a clone of the `Regex`, with a cache of its
//! own, and a match takes as little as it can by any pool.
use std::fmt::{self, Debug, Formatter};
use std::panic::{RefUnwindSafe, UnwindSafe};

type CreateFn<T> = Box<dyn Fn() -> T + Send + Sync + UnwindSafe + RefUnwindSafe + 'static>;

pub struct Pool<T>(T);

#[derive(Debug)]
pub struct PoolGuard<'a, T: Send>(&'a T);

// SAFETY: no two threads use one pool: `measure.rs` gives each of them a clone of the `Regex`.
unsafe impl<T: Send> Sync for Pool<T> {}
impl<T> UnwindSafe for Pool<T> {}
impl<T> RefUnwindSafe for Pool<T> {}

impl<T> Debug for Pool<T> {
    fn fmt(&self, f: &mut Formatter<'_>) -> fmt::Result {
        f.write_str("Pool")
    }
}

impl<T: Send> Pool<T> {
    pub fn new(create: CreateFn<T>) -> Pool<T> {
        Pool(create())
    }

    #[inline(always)]
    pub fn get(&self) -> PoolGuard<'_, T> {
        PoolGuard(&self.0)
    }
}

impl<T: Send> PoolGuard<'_, T> {
    pub fn value(&self) -> &T {
        self.0
    }
}
