//! The pool of caches, over a pool of kundratu-pool. A cache is kept as it is left.
use kundratu_pool::{LinearObjectPool, LinearReusable};
use std::fmt::{self, Debug, Formatter};
use std::panic::{RefUnwindSafe, UnwindSafe};
use std::sync::Arc;

type CreateFn<T> = Box<dyn Fn() -> T + Send + Sync + UnwindSafe + RefUnwindSafe + 'static>;

pub struct Pool<T>(LinearObjectPool<T>);

#[derive(Debug)]
pub struct PoolGuard<'a, T: Send>(LinearReusable<'a, T>);

impl<T> UnwindSafe for Pool<T> {}
impl<T> RefUnwindSafe for Pool<T> {}

impl<T: Debug> Debug for Pool<T> {
    fn fmt(&self, f: &mut Formatter<'_>) -> fmt::Result {
        f.debug_tuple("Pool").field(&self.0).finish()
    }
}

impl<T: Send> Pool<T> {
    pub fn new(create: CreateFn<T>) -> Pool<T>
    where
        T: 'static,
    {
        let create = Arc::new(create);
        Pool(LinearObjectPool::new(move || create(), |_| ()))
    }

    #[inline(always)]
    pub fn get(&self) -> PoolGuard<'_, T> {
        PoolGuard(self.0.pull())
    }
}

impl<T: Send> PoolGuard<'_, T> {
    pub fn value(&self) -> &T {
        &self.0
    }
}
