//! The pool of a fixed number of items.
use crate::pools::guard::{Guard, Source};
use crate::{library::Place, places::fixed::Fixed, places::slots::Slots};
use crate::{pools::or_else::OrElse, status::Status};
use std::fmt::{self, Debug, Display, Formatter};
use std::{collections::TryReserveError, error::Error, ops::Deref, sync::Arc};

/// A reset of any closure.
pub type Reset<T> = Box<dyn Fn(&mut T) + Send + Sync>;
/// An item that was pulled under a borrow of its pool.
pub type Reusable<'p, T, R = Reset<T>> = Guard<&'p Pool<T, R>, T>;
/// An item that was pulled with an owner of its pool.
pub type OwnedReusable<T, R = Reset<T>> = Guard<Arc<Pool<T, R>>, T>;

/// A pool of a fixed number of items, all made at first.
///
/// A pull waits for no other one, and asks for no memory, but where
/// [what it costs](crate::design) says so.
///
/// A return is a plain write, which all calls of pools see as soon as it has ended. Before a thread
/// that returned an item reads a flag of your own, by which others say that they wait for one, put
/// [`fence(SeqCst)`](std::sync::atomic::fence) there.
pub struct Pool<T, R = Reset<T>> {
    places: Fixed,
    items: Slots<T>,
    reset: R,
}

impl<T> Pool<T> {
    /// Creates a pool of so many items, each made by `init`. `reset` is called on each item as it
    /// comes back.
    ///
    /// # Errors
    ///
    /// `NoItems` if `items` is 0, or `Memory`.
    pub fn new(
        items: usize,
        init: impl FnMut() -> T,
        reset: impl Fn(&mut T) + Send + Sync + 'static,
    ) -> Result<Self, NewError> {
        Pool::with_reset(items, init, Box::new(reset))
    }
}

impl<T, R: Fn(&mut T)> Pool<T, R> {
    /// As [`new`](Pool::new), with a reset that the pool's type names: it is called directly.
    ///
    /// ```
    /// # use kundratu_pool::Pool;
    /// let pool = Pool::with_reset(1, String::new, String::clear)?;
    /// pool.pull().expect("none is held").push('a');
    /// let item = pool.pull().expect("it came back");
    /// assert!(item.is_empty() && pool.pull().is_none());
    /// # Ok::<(), kundratu_pool::NewError>(())
    /// ```
    pub fn with_reset(items: usize, init: impl FnMut() -> T, reset: R) -> Result<Self, NewError> {
        let slots = Slots::new(items, init).ok_or(NewError::Memory)?;
        Ok(Pool { items: slots, places: Fixed::new(items)?, reset })
    }

    /// Returns an item that was free. `None` if all were held at one moment of the call.
    #[inline(always)]
    pub fn pull(&self) -> Option<Reusable<'_, T, R>> {
        // SAFETY: the place was pulled from this pool.
        self.places.pull().map(|at| unsafe { Guard::new(self, at) })
    }

    /// Returns an item as [`pull`](Pool::pull) does, with a guard that keeps the pool.
    pub fn pull_owned(self: &Arc<Self>) -> Option<OwnedReusable<T, R>> {
        self.pull().map(|guard| guard.owned(self))
    }

    /// Pulls an item as [`pull`](Pool::pull) does. If all are held, this returns a value that belongs
    /// to no pool, and is dropped at its end without a reset.
    ///
    /// ```
    /// # use kundratu_pool::Pool;
    /// let pool = Pool::<String>::new(1, String::new, |text| text.clear())?;
    /// let one = pool.pull_or_else(String::new);
    /// let other = pool.pull_or_else(|| "other".to_string());
    /// assert!(one.is_pooled() && !other.is_pooled());
    /// # Ok::<(), kundratu_pool::NewError>(())
    /// ```
    pub fn pull_or_else(&self, value: impl FnOnce() -> T) -> OrElse<Reusable<'_, T, R>, T> {
        self.pull().map_or_else(|| OrElse::Own(value()), OrElse::Pooled)
    }

    /// Ends the pool, and returns its items.
    pub fn into_inner(self) -> Vec<T> {
        self.items.into_values().collect()
    }

    /// Returns the number of items.
    pub fn items(&self) -> usize {
        self.places.places()
    }

    /// Returns how many items there are, and are in use. All are made, and nobody waits.
    ///
    /// It reads a count of each thread that came to the pool.
    ///
    /// ```
    /// # use kundratu_pool::Pool;
    /// let pool = Pool::<u32>::new(8, || 0, |_| ())?;
    /// let item = pool.pull();
    /// assert_eq!((pool.status().items, pool.status().in_use), (8, 1));
    /// # Ok::<(), kundratu_pool::NewError>(())
    /// ```
    pub fn status(&self) -> Status {
        let items = self.items();
        Status::new([items, items, self.places.pulled()])
    }
}

// SAFETY: each place has a slot of its own.
unsafe impl<T, R: Fn(&mut T)> Source for Pool<T, R> {
    type Item = T;
    type Value = T;
    type At = Place;

    #[inline(always)]
    fn value(&self, at: &Place) -> *mut T {
        self.items.at(at.number())
    }

    fn item(value: &T) -> &T {
        value
    }

    fn item_mut(value: &mut T) -> &mut T {
        value
    }

    #[inline(always)]
    unsafe fn end(&self, at: Place) {
        // SAFETY: the caller says that nobody borrows it.
        (self.reset)(unsafe { &mut *self.value(&at) });
        // SAFETY: the caller says that it is of this pool.
        unsafe { self.places.give_back(at) };
    }
}

impl<T, R: Fn(&mut T), P: Deref<Target = Pool<T, R>>> Guard<P, T> {
    /// Returns the item's number in its pool, counted from 0.
    pub fn number(&self) -> usize {
        self.at.number()
    }
}

/// Why a pool wasn't made.
#[derive(Clone, Copy, Debug, PartialEq, Eq)]
#[non_exhaustive]
pub enum NewError {
    /// A pool of no items was asked for.
    NoItems,
    /// The pool's own memory was refused.
    Memory,
}

impl Error for NewError {}

impl From<TryReserveError> for NewError {
    fn from(_: TryReserveError) -> NewError {
        NewError::Memory
    }
}

impl Display for NewError {
    fn fmt(&self, f: &mut Formatter<'_>) -> fmt::Result {
        f.write_str(match self {
            NewError::NoItems => "a pool has one item at least",
            NewError::Memory => "memory was refused",
        })
    }
}

impl<T, R: Fn(&mut T)> Debug for Pool<T, R> {
    fn fmt(&self, f: &mut Formatter<'_>) -> fmt::Result {
        f.debug_struct("Pool").field("items", &self.items()).finish_non_exhaustive()
    }
}
