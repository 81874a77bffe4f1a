#![doc = include_str!("lazy/lazy.md")]
mod builder;
mod error;
#[allow(unsafe_code)]
mod held;
mod idle;
#[allow(unsafe_code)]
mod places;
mod queue;
mod signs;
mod tasks;
mod turn;
mod waiters;

use crate::places::slots::Slots;
use crate::pools::{guard::Guard, or_else::OrElse, pool::NewError};
use crate::status::Status;
pub use builder::{Builder, BuilderOf, Event, Manager};
pub use error::PullError;
use held::{keep_if, Got, Held};
use idle::Entry;
use places::Places;
use std::fmt::{self, Debug, Formatter};
use std::time::{Duration, Instant};
use std::{iter, sync::Arc};
use turn::Turn;
use waiters::{left, Limit};

/// An item that was pulled under a borrow of its [`LazyPool`].
pub type LazyReusable<'p, T, E> = Guard<&'p LazyPool<T, E>, T>;
/// An item that was pulled with an owner of its [`LazyPool`].
pub type LazyOwnedReusable<T, E> = Guard<Arc<LazyPool<T, E>>, T>;

/// What a pull returns.
type PullResult<'p, T, E> = Result<LazyReusable<'p, T, E>, PullError<E>>;
type OwnedPullResult<T, E> = Result<LazyOwnedReusable<T, E>, PullError<E>>;
type Judge<T> = Box<dyn Fn(&mut T) -> bool + Send + Sync>;

/// A pool of at most so many items, each made when it is first needed: a pool of connections.
///
/// A free item is preferred to making one. A pull may wait until an item is returned, as a thread
/// or as a task. Who waits longest needn't come first, but in a pool that is
/// [`fair`](Builder::fair).
///
/// At its end a guard resets its item and returns it. If the reset rejects the item, or if the pool
/// is closed, the item is dropped, and its place is empty: the pool may make another one there. How
/// many there may be stays as it is: a pool isn't resized.
///
/// `init`, `reset`, the check, the drops of items and what is called at events run under no lock of
/// the pool. If one of them panics, its item is dropped, or goes back, and its place is free. One
/// that waits on its own pool can wait for ever.
///
/// # Examples
///
/// ```
/// use kundratu_pool::LazyPool;
/// use std::fs::File;
/// use std::time::Duration;
///
/// let pool = LazyPool::new(4, || File::open("/dev/null"), |_file| true)?;
/// let file = pool.pull()?; // opens the first one
/// drop(file);
/// let file = pool.pull_timeout(Duration::from_secs(1))?; // the same one
/// assert_eq!(pool.status().made, 1);
/// file.discard(); // as if it were broken
/// assert_eq!(pool.status().made, 0);
/// # Ok::<(), Box<dyn std::error::Error>>(())
/// ```
pub struct LazyPool<T, E> {
    items: Slots<Entry<T>>,
    places: Places,
    settings: Builder<T, E>,
}

impl<T, E> LazyPool<T, E> {
    /// Creates a pool of at most so many items, and makes none. `reset` is called on each item as
    /// it comes back, and returns whether it is kept.
    ///
    /// # Errors
    ///
    /// `NoItems` if `items` is 0, or `Memory`, also if they are 2^32 or more.
    pub fn new(
        items: usize,
        init: impl Fn() -> Result<T, E> + Send + Sync + 'static,
        reset: impl Fn(&mut T) -> bool + Send + Sync + 'static,
    ) -> Result<Self, NewError> {
        Self::builder(items).init(init).reset(reset).build()
    }

    /// Returns a builder of a pool of at most so many items.
    pub fn builder(items: usize) -> BuilderOf<T, E> {
        BuilderOf::new(items)
    }

    /// Checks each free item before it is pulled, as [`check`](Builder::check) of a builder says.
    #[must_use]
    pub fn with_check(mut self, check: impl Fn(&mut T) -> bool + Send + Sync + 'static) -> Self {
        self.settings.check = Some(Box::new(check));
        self.places.signs().mind();
        self
    }

    /// Pulls a free item, or makes one if none is free and there are fewer than there may be.
    ///
    /// # Errors
    ///
    /// - `AllInUse` if as many items as there may be were in use at one moment of the call, or being
    ///   made, checked, reset or dropped. In a fair pool also if others wait.
    /// - `Closed` if the pool is closed.
    /// - `Init` if `init` failed. Then the place is empty.
    #[inline(always)]
    pub fn pull(&self) -> PullResult<'_, T, E> {
        Held::plain(self).map_or_else(|| self.pull_now(), Ok)
    }

    /// Pulls an item, or fails, as [`pull`](LazyPool::pull) does, with a guard that keeps the pool.
    pub fn pull_owned(self: &Arc<Self>) -> OwnedPullResult<T, E> {
        self.pull().map(|guard| guard.owned(self))
    }

    /// Pulls an item as [`pull`](LazyPool::pull) does. If that fails for any reason, this returns a
    /// value that belongs to no pool, and is dropped at its end.
    pub fn pull_or_else(&self, value: impl FnOnce() -> T) -> OrElse<LazyReusable<'_, T, E>, T> {
        self.pull().map_or_else(|_| OrElse::Own(value()), OrElse::Pooled)
    }

    /// Pulls an item that is made and free. `None` if there is none that the check keeps, or if
    /// the pool is closed. In a fair pool also if others wait.
    pub fn try_pull(&self) -> Option<LazyReusable<'_, T, E>> {
        let may_pull = || !self.is_closed() && !self.places.others_come_first();
        let mut made = iter::from_fn(|| may_pull().then(|| Held::made(self)).flatten());
        made.find_map(|mut held| self.is_kept(&mut held).then(|| self.given(held)))
    }

    /// Pulls an item as [`try_pull`](LazyPool::try_pull) does, with a guard that keeps the pool.
    pub fn try_pull_owned(self: &Arc<Self>) -> Option<LazyOwnedReusable<T, E>> {
        self.try_pull().map(|guard| guard.owned(self))
    }

    /// Pulls an item as [`pull`](LazyPool::pull) does. If all are in use, it waits until one is
    /// returned, however long.
    ///
    /// # Errors
    ///
    /// `Closed` or `Init`, as `pull`.
    #[inline(always)]
    pub fn pull_wait(&self) -> PullResult<'_, T, E> {
        Held::plain(self).map_or_else(|| self.pull_until(None), Ok)
    }

    /// Pulls an item, or fails, as [`pull_wait`](LazyPool::pull_wait) does, with a guard that keeps
    /// the pool.
    pub fn pull_owned_wait(self: &Arc<Self>) -> OwnedPullResult<T, E> {
        self.pull_wait().map(|guard| guard.owned(self))
    }

    /// Pulls an item as [`pull_wait`](LazyPool::pull_wait) does, and waits for `time` at most. No
    /// `init` begins after that time, but one that began goes on to its end. So with no time at all
    /// the pull gives only an item that is made and free.
    ///
    /// # Errors
    ///
    /// - `TimedOut` if a last try after that time was refused as a `pull`, or found none made.
    /// - `Closed` or `Init`, as `pull`.
    #[inline(always)]
    pub fn pull_timeout(&self, time: Duration) -> PullResult<'_, T, E> {
        let limit = || Instant::now().checked_add(time);
        Held::plain(self).map_or_else(|| self.pull_until(limit()), Ok)
    }

    /// Pulls an item, or fails, as [`pull_timeout`](LazyPool::pull_timeout) does, with a guard that
    /// keeps the pool.
    pub fn pull_owned_timeout(self: &Arc<Self>, time: Duration) -> OwnedPullResult<T, E> {
        self.pull_timeout(time).map(|guard| guard.owned(self))
    }

    /// Gives this item to the pool, at a place that is empty, and returns its guard. `init` isn't
    /// called.
    ///
    /// # Errors
    ///
    /// The item, if no place was empty at one moment, or if the pool is closed.
    ///
    /// # Examples
    ///
    /// ```
    /// # use kundratu_pool::LazyPool;
    /// let pool = LazyPool::<u32, ()>::new(1, || Err(()), |_| true)?;
    /// assert!(pool.attach(7).is_ok());
    /// assert_eq!(pool.attach(8).err(), Some(8));
    /// assert_eq!(pool.try_pull().as_deref(), Some(&7));
    /// # Ok::<(), kundratu_pool::NewError>(())
    /// ```
    pub fn attach(&self, item: T) -> Result<LazyReusable<'_, T, E>, T> {
        let empty = (!self.is_closed()).then(|| Held::empty(self)).flatten();
        let Some(mut held) = empty else { return Err(item) };
        self.put(&mut held, item);
        Ok(held.guard())
    }

    /// Makes items until so many are made, or no place is empty. Those that are made are counted at
    /// its beginning.
    ///
    /// # Errors
    ///
    /// `Init` at the first error of `init`, or `Closed`.
    pub fn fill(&self, items: usize) -> Result<(), PullError<E>> {
        for _ in self.places.made()..items.min(self.places.count()) {
            if self.is_closed() {
                return Err(PullError::Closed);
            }
            let Some(mut held) = Held::empty(self) else { break };
            self.make(&mut held, None)?;
        }
        Ok(())
    }

    /// Makes items, or fails, as [`fill`](LazyPool::fill) does, until the
    /// [least](Builder::least) number is made.
    pub fn fill_least(&self) -> Result<(), PullError<E>> {
        self.fill(self.settings.least)
    }

    /// Drops the items that are free. Their places are empty then.
    pub fn clear(&self) {
        let free = (0..self.places.count()).map_while(|_| Held::made(self));
        free.for_each(|mut held| drop(held.entry().item.take()));
    }

    /// Closes the pool. From now on its pulls fail, also those that wait. The items that are free
    /// are dropped, and those in use when they come back.
    pub fn close(&self) {
        self.places.close();
        self.clear();
    }

    /// Returns whether the pool is closed.
    pub fn is_closed(&self) -> bool {
        self.places.signs().load().is_closed()
    }

    /// Returns how many items there may be, are made, are in use, and are waited for.
    ///
    /// It reads a count of each thread that came to the pool.
    pub fn status(&self) -> Status {
        let places = &self.places;
        let counts = Status::new([places.count(), places.made(), places.in_use()]);
        Status { waiting: places.signs().load().waiting(), ..counts }
    }

    /// Ends the pool, and returns its items.
    pub fn into_inner(self) -> Vec<T> {
        self.items.into_values().filter_map(|entry| entry.item).collect()
    }

    /// Pulls an item, or makes one.
    #[inline(never)]
    fn pull_now(&self) -> PullResult<'_, T, E> {
        self.item(Held::any(self).ok_or(PullError::AllInUse)??, None)
    }

    /// Pulls an item, or waits for one until the limit.
    #[inline(never)]
    fn pull_until(&self, limit: Limit) -> PullResult<'_, T, E> {
        let held = Held::any(self).or_else(|| self.wait(limit));
        self.item(held.ok_or(PullError::TimedOut)??, limit)
    }

    fn emit(&self, event: Event) {
        if let Some(call) = &self.settings.on_event {
            call(event);
        }
    }

    #[cold]
    fn wait(&self, limit: Limit) -> Got<'_, T, E> {
        self.emit(Event::Waits);
        if self.places.is_fair() {
            return Turn::new(self).wait(limit);
        }
        Held::of(self, self.places.wait(limit))
    }

    /// Returns whether a place has an item that is kept: not too old, and by the check.
    fn is_kept(&self, held: &mut Held<'_, T, E>) -> bool {
        let is_over = self.settings.times.is_over(held.entry());
        let check = |item: &mut T| self.settings.check.as_ref().is_none_or(|check| check(item));
        keep_if(&mut held.entry().item, |item| !is_over && check(item))
    }

    /// Returns the item of a place, or makes one if there is none that is kept.
    fn item<'p>(&'p self, mut held: Held<'p, T, E>, limit: Limit) -> PullResult<'p, T, E> {
        if !self.is_kept(&mut held) {
            self.make(&mut held, limit)?;
        }
        Ok(self.given(held))
    }

    /// Returns the guard of a place with an item, which was pulled.
    fn given<'p>(&'p self, held: Held<'p, T, E>) -> LazyReusable<'p, T, E> {
        let guard = held.guard();
        self.emit(Event::Pulled);
        guard
    }

    /// Makes the item of an empty place, if the limit isn't over.
    #[cold]
    fn make(&self, held: &mut Held<'_, T, E>, limit: Limit) -> Result<(), PullError<E>> {
        if left(limit).is_zero() {
            return Err(PullError::TimedOut);
        }
        self.put_made(held, (self.settings.init)())
    }

    /// Puts what an initializer made to a place that is empty.
    fn put_made(&self, held: &mut Held<'_, T, E>, made: Result<T, E>) -> Result<(), PullError<E>> {
        let is_made = made.is_ok();
        let made = made.map(|item| self.put(held, item));
        self.emit(if is_made { Event::Made } else { Event::Failed });
        Ok(made?)
    }

    fn put(&self, held: &mut Held<'_, T, E>, item: T) {
        held.entry().item = Some(item);
        self.settings.times.made(held.entry());
    }
}

impl<T, E> Debug for LazyPool<T, E> {
    fn fmt(&self, f: &mut Formatter<'_>) -> fmt::Result {
        f.debug_tuple("LazyPool").field(&self.status()).finish()
    }
}

#[cfg(test)]
#[path = "../../unit_tests/lazy_steps.rs"]
mod tests;
