//! An item that is held.
use crate::library::Place;
use std::fmt::{self, Debug, Formatter};
use std::ops::{Deref, DerefMut};
use std::{marker::PhantomData, mem::ManuallyDrop, ptr, sync::Arc};

/// A pool whose items are held by guards. Only this crate's pools are such.
///
/// # Safety
///
/// Each place has a value of its own, which stays where it is while the pool does.
pub unsafe trait Source: Sized {
    /// What a guard gives.
    type Item;
    /// What lies at a place.
    #[doc(hidden)]
    type Value;
    /// How a guard names its place.
    #[doc(hidden)]
    type At;

    /// Returns where the value of a place lies.
    #[doc(hidden)]
    fn value(&self, at: &Self::At) -> *mut Self::Value;

    /// Borrows the item of a value, which a held place has.
    #[doc(hidden)]
    fn item(value: &Self::Value) -> &Self::Item;

    /// Borrows the item of a value to write.
    #[doc(hidden)]
    fn item_mut(value: &mut Self::Value) -> &mut Self::Item;

    /// Resets the value of a place, and returns the place.
    ///
    /// # Safety
    ///
    /// The place was pulled from this pool. Nobody borrows its value.
    #[doc(hidden)]
    unsafe fn end(&self, at: Self::At);
}

/// An item that is held, of a pool that is held by a borrow or by an owner. Its end resets the item
/// and returns it. Threads share a guard only if they may share its item:
///
/// ```compile_fail,E0277
/// fn is_shared<S: Sync>() {}
/// is_shared::<kundratu_pool::Reusable<'static, std::cell::Cell<u32>>>();
/// ```
#[must_use = "the item is returned at once"]
pub struct Guard<P: Deref<Target: Source<Item = T, At = A>>, T, A = Place> {
    pool: P,
    /// The right to the item's place, which the guard's end spends.
    pub(super) at: ManuallyDrop<A>,
    /// A guard goes to threads, and is shared by them, as its item may.
    item: PhantomData<T>,
}

/// A guard keeps its item's address, but it doesn't promise to.
impl<P: Deref<Target: Source<Item = T, At = A>>, T, A> Unpin for Guard<P, T, A> {}

impl<S: Source> Guard<&S, S::Item, S::At> {
    /// Changes to a guard that keeps the pool, of which this is an owner.
    pub(crate) fn owned(self, pool: &Arc<S>) -> Guard<Arc<S>, S::Item, S::At> {
        let pool = Arc::clone(pool);
        let mut this = ManuallyDrop::new(self);
        assert!(ptr::eq(this.pool, &*pool), "the owner is of another pool");
        // SAFETY: this guard is used no more.
        let at = unsafe { ManuallyDrop::take(&mut this.at) };
        // SAFETY: the place is of this pool.
        unsafe { Guard::new(pool, at) }
    }
}

impl<P: Deref<Target: Source<Item = T, At = A>>, T, A> Guard<P, T, A> {
    /// Creates the guard of a place.
    ///
    /// # Safety
    ///
    /// The place was pulled from this pool, and nobody else has it.
    #[inline(always)]
    pub(crate) unsafe fn new(pool: P, at: A) -> Self {
        Guard { pool, at: ManuallyDrop::new(at), item: PhantomData }
    }

    /// Borrows what lies at the place.
    #[inline(always)]
    pub(crate) fn value(&self) -> &<P::Target as Source>::Value {
        // SAFETY: the guard alone has the place, and who writes there borrows it to write.
        unsafe { &*self.pool.value(&self.at) }
    }

    /// Borrows what lies at the place, to write.
    #[inline(always)]
    pub(crate) fn value_mut(&mut self) -> &mut <P::Target as Source>::Value {
        // SAFETY: the guard alone has the place, and nobody else borrows it.
        unsafe { &mut *self.pool.value(&self.at) }
    }
}

impl<P: Deref<Target: Source<Item = T, At = A>>, T, A> Deref for Guard<P, T, A> {
    type Target = T;

    #[inline(always)]
    fn deref(&self) -> &T {
        P::Target::item(self.value())
    }
}

impl<P: Deref<Target: Source<Item = T, At = A>>, T, A> DerefMut for Guard<P, T, A> {
    #[inline(always)]
    fn deref_mut(&mut self) -> &mut T {
        P::Target::item_mut(self.value_mut())
    }
}

impl<P: Deref<Target: Source<Item = T, At = A>>, T, A> Drop for Guard<P, T, A> {
    /// Resets the item and returns it. If the reset panics, the item is never pulled again.
    #[inline(always)]
    fn drop(&mut self) {
        // SAFETY: the guard ends here.
        let at = unsafe { ManuallyDrop::take(&mut self.at) };
        // SAFETY: the place is of this pool, and what borrowed from the guard has ended.
        unsafe { self.pool.end(at) };
    }
}

impl<P: Deref<Target: Source<Item = T, At = A>>, T: Debug, A> Debug for Guard<P, T, A> {
    fn fmt(&self, f: &mut Formatter<'_>) -> fmt::Result {
        (**self).fmt(f)
    }
}

/// A value of which a call is made at its end, also if something panics, unless it is forgotten.
pub(crate) struct AtEnd<V, C: FnMut(&mut V)>(pub(crate) V, pub(crate) C);

impl<V, C: FnMut(&mut V)> Drop for AtEnd<V, C> {
    #[inline(always)]
    fn drop(&mut self) {
        (self.1)(&mut self.0);
    }
}
