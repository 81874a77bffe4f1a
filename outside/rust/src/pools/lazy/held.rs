//! A place of a lazy pool from its pull to its return.
use super::places::{Any, Closed};
use super::signs::{CLOSED, MINDS};
use super::{Entry, LazyPool, LazyReusable, PullError};
use crate::library::Place;
use crate::pools::guard::{AtEnd, Guard, Source};
use std::{mem, ops::Deref};

/// A place that is held. At its end it is free, with the item that lies there or empty.
pub(super) struct Held<'p, T, E> {
    pool: &'p LazyPool<T, E>,
    place: Place,
}

/// A place, if one is free, or why there is none.
pub(super) type Got<'p, T, E> = Option<Result<Held<'p, T, E>, PullError<E>>>;

impl<'p, T, E> Held<'p, T, E> {
    /// Pulls a place with an item. `None` if there was none at one moment.
    #[inline(always)]
    pub(super) fn made(pool: &'p LazyPool<T, E>) -> Option<Self> {
        Some(Held { pool, place: pool.places.made.pull()? })
    }

    /// Pulls an empty place. `None` if there was none at one moment.
    pub(super) fn empty(pool: &'p LazyPool<T, E>) -> Option<Self> {
        Some(Held { pool, place: pool.places.pull_empty()? })
    }

    /// Pulls an item, if the pool has nothing else to mind.
    #[inline(always)]
    pub(super) fn plain(pool: &'p LazyPool<T, E>) -> Option<LazyReusable<'p, T, E>> {
        let place = pool.places.pull_plain()?;
        // SAFETY: the place was pulled just now, and has an item.
        Some(unsafe { Guard::new(pool, place) })
    }

    pub(super) fn any(pool: &'p LazyPool<T, E>) -> Got<'p, T, E> {
        Self::of(pool, pool.places.any())
    }

    /// Creates the holder of a place that was pulled of this pool just now, if one was.
    pub(super) fn of(pool: &'p LazyPool<T, E>, any: Any) -> Got<'p, T, E> {
        let held = |place| Held { pool, place };
        any.map(|any| any.map(held).map_err(|Closed| PullError::Closed))
    }

    pub(super) fn entry(&mut self) -> &mut Entry<T> {
        // SAFETY: nobody else has the place, and this borrow of it is the only one.
        unsafe { &mut *self.pool.value(&self.place) }
    }

    /// Changes to a guard. The place has an item.
    pub(super) fn guard(self) -> LazyReusable<'p, T, E> {
        let held = mem::ManuallyDrop::new(self);
        // SAFETY: this ends here without its drop, and the place is of its pool.
        unsafe { Guard::new(held.pool, Place::held(held.place.number())) }
    }
}

impl<T, E> Drop for Held<'_, T, E> {
    #[inline(always)]
    fn drop(&mut self) {
        let is_made = self.entry().item.is_some();
        // SAFETY: the right to the place ends here.
        let place = unsafe { Place::held(self.place.number()) };
        // SAFETY: the place is of this pool, and has an item or none, as was just seen.
        let is_closed = unsafe { self.pool.places.give_back(place, is_made) };
        if is_closed && is_made {
            self.pool.clear(); // it was closed meanwhile
        }
    }
}

/// Drops an item unless it is kept, and returns whether it is. If the call panics, it isn't.
#[inline(always)]
pub(super) fn keep_if<T>(item: &mut Option<T>, is_kept: impl FnOnce(&mut T) -> bool) -> bool {
    let drops = AtEnd(item, |item| drop(item.take()));
    let is_kept = drops.0.as_mut().is_some_and(is_kept);
    is_kept.then(|| mem::forget(drops)).is_some()
}

// SAFETY: each place has a slot of its own.
unsafe impl<T, E> Source for LazyPool<T, E> {
    type Item = T;
    type Value = Entry<T>;
    type At = Place;

    fn value(&self, place: &Place) -> *mut Entry<T> {
        self.items.at(place.number())
    }

    fn item(value: &Entry<T>) -> &T {
        value.item.as_ref().expect("a guard has an item")
    }

    fn item_mut(value: &mut Entry<T>) -> &mut T {
        value.item.as_mut().expect("a guard has an item")
    }

    /// Resets the item, or drops it. The place is returned, also if something panics.
    #[inline(always)]
    unsafe fn end(&self, place: Place) {
        let mut held = Held { pool: self, place };
        let entry = held.entry();
        let is_plain = !self.places.signs().load().has(CLOSED | MINDS);
        let may_stay = is_plain || (!self.is_closed() && !self.settings.times.is_past(entry));
        if keep_if(&mut entry.item, |item| may_stay && (self.settings.reset)(item)) && !is_plain {
            self.settings.times.came(entry);
        }
    }
}

impl<T, E, P: Deref<Target = LazyPool<T, E>>> Guard<P, T> {
    /// Drops the item without a reset. Then its place is empty.
    pub fn discard(mut self) {
        drop(self.value_mut().item.take());
    }

    /// Takes the item out of the pool, which may make another one.
    #[must_use = "the item is dropped if it isn't used"]
    pub fn detach(mut self) -> T {
        self.value_mut().item.take().expect("a guard has an item")
    }
}
