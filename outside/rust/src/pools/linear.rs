//! A pool that grows, by the names of lockfree-object-pool 0.1.6.
use crate::places::growing::{Growing, Held, PartName, Parts, PulledPlace};
use crate::pools::guard::{AtEnd, Guard, Source};
use crate::{places::slots::Slots, pools::pool::Reset, refuse, status::Status};
use std::alloc::{handle_alloc_error, Layout};
use std::fmt::{self, Debug, Formatter};
use std::mem::{self, MaybeUninit};
use std::{ptr::NonNull, sync::Arc};

/// An item that was pulled under a borrow of its [`LinearObjectPool`].
pub type LinearReusable<'a, T> = Guard<&'a LinearObjectPool<T>, T, At<T>>;
/// An item that was pulled with an owner of its [`LinearObjectPool`].
pub type LinearOwnedReusable<T> = Guard<Arc<LinearObjectPool<T>>, T, At<T>>;

/// An item, and one more than the place where it lies: 0 if there is no item, as in new memory. So
/// a guard has one word for both, and is sent with less.
pub struct Item<T> {
    item: MaybeUninit<T>,
    after: usize,
}

impl<T> Drop for Item<T> {
    fn drop(&mut self) {
        if self.after != 0 {
            // SAFETY: there is an item, and it ends here.
            unsafe { self.item.assume_init_drop() };
        }
    }
}

/// The right to a place, by where its item lies until the pool ends.
pub struct At<T>(NonNull<Item<T>>);

// SAFETY: who has it goes to the item only by a guard, which is sent as its item may be.
unsafe impl<T> Send for At<T> {}
// SAFETY: a borrow of it reaches no item, and a guard is shared as its item may be.
unsafe impl<T> Sync for At<T> {}

/// A pool whose pulls are never refused.
///
/// An item is made when all that were made are held, or kept by other threads.
///
/// ```
/// use kundratu_pool::LinearObjectPool;
///
/// let pool = LinearObjectPool::<u32>::new(Default::default, |number| *number = 0);
/// let mut item = pool.pull();
/// *item += 5;
/// drop(item);
/// assert_eq!(*pool.pull(), 0);
/// ```
pub struct LinearObjectPool<T> {
    places: Arc<Growing>,
    parts: Parts<Slots<Item<T>>>,
    init: Box<dyn Fn() -> T + Send + Sync>,
    reset: Reset<T>,
}

impl<T> LinearObjectPool<T> {
    /// Creates a pool of items that `init` makes, and `reset` resets as they come back.
    pub fn new<R, I>(init: I, reset: R) -> Self
    where
        R: Fn(&mut T) + Send + Sync + 'static,
        I: Fn() -> T + Clone + Send + Sync + 'static,
    {
        let (places, parts) = (Arc::new(Growing::new()), Parts::new());
        LinearObjectPool { places, parts, init: Box::new(init), reset: Box::new(reset) }
    }

    /// Returns an item that was free, or a new one.
    #[inline(always)]
    pub fn pull(&self) -> LinearReusable<'_, T> {
        let held = self.places.pull(|pulled| self.find(pulled));
        // SAFETY: the place was pulled from this pool.
        unsafe { Guard::new(self, At(held.item.cast())) }
    }

    /// Returns an item as [`pull`](LinearObjectPool::pull) does, with a guard that keeps the pool.
    pub fn pull_owned(self: &Arc<Self>) -> LinearOwnedReusable<T> {
        self.pull().owned(self)
    }

    /// Returns how many items have room now, are made, and are in use. Nobody waits.
    ///
    /// It reads a count of each thread that came to the pool, and of each part of it, of which there
    /// are 1,024 at most.
    ///
    /// ```
    /// # use kundratu_pool::LinearObjectPool;
    /// let pool = LinearObjectPool::<u32>::new(Default::default, |_| ());
    /// let (one, other) = (pool.pull(), pool.pull());
    /// drop(other);
    /// assert_eq!((pool.status().made, pool.status().in_use), (2, 1));
    /// ```
    pub fn status(&self) -> Status {
        Status::new(self.places.counts())
    }

    /// Returns this place with its item, which is made if there is none. The place is pulled if it
    /// isn't yet.
    #[inline(always)]
    fn find(&self, pulled: Option<PulledPlace>) -> Held {
        let pulled = pulled.unwrap_or_else(|| self.pull_far());
        let at = pulled.at;
        // SAFETY: the place was pulled, and nobody else has it.
        let value = unsafe { &mut *self.slot(at) };
        // New memory isn't read before it is written: each would be a fault of its own.
        if !pulled.is_made {
            self.make_item(pulled, value);
        }
        Held { at, item: NonNull::from(value).cast() }
    }

    /// Makes the item of a place that was pulled. If that panics, the place is left to a later pull
    /// that makes one.
    #[cold]
    fn make_item(&self, pulled: PulledPlace, value: &mut Item<T>) {
        // SAFETY: the place is of this pool, and the right to it ends here.
        let bare = AtEnd(pulled, |pulled| unsafe { self.places.leave_bare(pulled.at) });
        value.item.write((self.init)());
        value.after = bare.0.at + 1;
        mem::forget(bare);
    }

    /// Pulls a place of any part. One is made if there is none.
    #[cold]
    fn pull_far(&self) -> PulledPlace {
        loop {
            let made = match self.places.pull_far() {
                Ok(pulled) => return pulled,
                Err(name) => name.and_then(|name| self.make(name)),
            };
            made.unwrap_or_else(|| handle_alloc_error(Layout::new::<T>()));
        }
    }

    #[inline(always)]
    fn slot(&self, at: usize) -> *mut Item<T> {
        let (name, place) = PartName::of(at);
        self.parts.get(name).unwrap_or_else(|| refuse()).at(place)
    }

    /// How many places the first part of a shard has: of great items few, since they have their
    /// room before they are made.
    const FIRST: usize = match size_of::<Item<T>>() {
        0..=64 => 8,
        65..=256 => 2,
        _ => 1,
    };

    /// Makes a part, if it isn't there. `None` if memory is refused.
    fn make(&self, name: PartName) -> Option<()> {
        let places = Self::FIRST << name.doublings();
        // SAFETY: zeros are a value without an item, which has a word.
        let items = || unsafe { Slots::zeroed(places) };
        self.parts.make(name, items)?;
        self.places.make(name, places)
    }
}

impl<T> Debug for LinearObjectPool<T> {
    fn fmt(&self, f: &mut Formatter<'_>) -> fmt::Result {
        f.debug_struct("LinearObjectPool").finish_non_exhaustive()
    }
}

// SAFETY: each place has a slot of its own.
unsafe impl<T> Source for LinearObjectPool<T> {
    type Item = T;
    type Value = Item<T>;
    type At = At<T>;

    #[inline(always)]
    fn value(&self, at: &At<T>) -> *mut Item<T> {
        at.0.as_ptr()
    }

    fn item(value: &Item<T>) -> &T {
        // SAFETY: a place that is held has its item.
        unsafe { value.item.assume_init_ref() }
    }

    fn item_mut(value: &mut Item<T>) -> &mut T {
        // SAFETY: a place that is held has its item.
        unsafe { value.item.assume_init_mut() }
    }

    #[inline(always)]
    unsafe fn end(&self, At(mut place): At<T>) {
        // SAFETY: the caller says that nobody borrows it.
        let value = unsafe { place.as_mut() };
        (self.reset)(Self::item_mut(value));
        let (at, item) = (value.after - 1, place.cast());
        // SAFETY: the caller says that the place is of this pool.
        unsafe { self.places.give_back(Held { at, item }) };
    }
}
