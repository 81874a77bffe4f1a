//! Pulls of a lazy pool that wait as tasks.
use super::{LazyPool, OwnedPullResult, PullResult, Turn};
use std::{future::Future, sync::Arc};

impl<T, E> LazyPool<T, E> {
    /// Pulls an item as [`pull_wait`](LazyPool::pull_wait) does, as a task of any executor: it is
    /// woken when a place is handed to it. Tasks are served in the order in which they came. If
    /// this future is dropped, its place in the queue goes, and a place that was handed to it goes
    /// on to the next.
    ///
    /// `init` runs in the task. For one that is async there is
    /// [`pull_async_with`](LazyPool::pull_async_with).
    ///
    /// # Errors
    ///
    /// `Closed` or `Init`, as `pull`.
    ///
    /// # Examples
    ///
    /// ```
    /// # use kundratu_pool::{LazyPool, PullError};
    /// async fn send(pool: &LazyPool<Vec<u8>, ()>) -> Result<usize, PullError<()>> {
    ///     let buffer = pool.pull_async().await?;
    ///     Ok(buffer.len())
    /// }
    /// ```
    pub async fn pull_async(&self) -> PullResult<'_, T, E> {
        self.item(Turn::new(self).await?, None)
    }

    /// Pulls an item, or fails, as [`pull_async`](LazyPool::pull_async) does, with a guard that keeps
    /// the pool.
    pub fn pull_owned_async(self: &Arc<Self>) -> impl Future<Output = OwnedPullResult<T, E>> {
        let pool = Arc::clone(self);
        async move { Ok(pool.pull_async().await?.owned(&pool)) }
    }

    /// Pulls an item as [`pull_async`](LazyPool::pull_async) does. If one is to be made, this
    /// future makes it, in place of `init`; else it is dropped. The place is in use meanwhile. If
    /// it fails, panics or is dropped, the place is empty, and goes on to the next.
    ///
    /// # Errors
    ///
    /// `Closed`, or `Init` if the future fails.
    ///
    /// # Examples
    ///
    /// ```
    /// # use kundratu_pool::{LazyPool, PullError};
    /// # async fn connect() -> Result<u32, &'static str> { Ok(7) }
    /// async fn ask(pool: &LazyPool<u32, &'static str>) -> Result<u32, PullError<&'static str>> {
    ///     let connection = pool.pull_async_with(connect()).await?;
    ///     Ok(*connection)
    /// }
    /// ```
    pub async fn pull_async_with(
        &self,
        init: impl Future<Output = Result<T, E>>,
    ) -> PullResult<'_, T, E> {
        let mut held = Turn::new(self).await?;
        if !self.is_kept(&mut held) {
            self.put_made(&mut held, init.await)?;
        }
        Ok(self.given(held))
    }

    /// Pulls an item, or fails, as [`pull_async_with`](LazyPool::pull_async_with) does, with a guard
    /// that keeps the pool.
    pub fn pull_owned_async_with(
        self: &Arc<Self>,
        init: impl Future<Output = Result<T, E>>,
    ) -> impl Future<Output = OwnedPullResult<T, E>> {
        let pool = Arc::clone(self);
        async move { Ok(pool.pull_async_with(init).await?.owned(&pool)) }
    }
}
