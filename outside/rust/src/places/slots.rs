//! What lies at the places of a pool.
use crate::refuse;
use std::alloc::{alloc_zeroed, Layout};
use std::{cell::UnsafeCell, ptr::NonNull};

/// A value at a place. Who holds the place reaches it.
struct Slot<V>(UnsafeCell<V>);

// SAFETY: a value is reached by its place's holder, of whom there is one at a time. So to share the
// slots is to send the values from one to another.
unsafe impl<V: Send> Sync for Slot<V> {}

/// A value that has cache lines of its own.
#[repr(align(128))]
pub(crate) struct OwnLines<V>(pub(crate) V);

/// Values by their places.
pub(crate) struct Slots<V>(Vec<Slot<V>>);

impl<V> Slots<V> {
    /// Creates so many slots, with values that this makes. `None` if memory is refused.
    pub(crate) fn new(count: usize, mut value: impl FnMut() -> V) -> Option<Slots<V>> {
        let mut slots = Vec::new();
        slots.try_reserve_exact(Self::with_room(count)?).ok()?;
        slots.resize_with(count, || Slot(UnsafeCell::new(value())));
        Some(Slots(slots))
    }

    /// Creates so many slots of zeros. Each page of their memory is first touched when one of its
    /// slots is. `None` if memory is refused.
    ///
    /// # Safety
    ///
    /// Zeros are a value, which isn't of size 0.
    pub(crate) unsafe fn zeroed(count: usize) -> Option<Slots<V>> {
        let capacity = Self::with_room(count)?;
        let layout = Layout::array::<Slot<V>>(capacity).ok()?;
        // SAFETY: there is a slot or more, of a size that isn't 0.
        let zeros = NonNull::new(unsafe { alloc_zeroed(layout) })?;
        // SAFETY: the memory has the layout of so many slots, and its zeros are values.
        let slots = unsafe { Vec::from_raw_parts(zeros.as_ptr().cast(), count, capacity) };
        Some(Slots(slots))
    }

    /// Returns how many slots have room for so many, and for a cache line behind them on which no
    /// other memory is.
    fn with_room(count: usize) -> Option<usize> {
        count.checked_add(128 / size_of::<V>().max(1))
    }

    /// Returns how many bytes are free behind the last slot.
    #[cfg(test)]
    pub(crate) fn room(&self) -> usize {
        (self.0.capacity() - self.0.len()) * size_of::<V>()
    }

    /// Returns the values, in their order.
    pub(crate) fn into_values(self) -> impl Iterator<Item = V> {
        self.0.into_iter().map(|slot| slot.0.into_inner())
    }

    /// Returns where the value of a place lies.
    #[inline(always)]
    pub(crate) fn at(&self, place: usize) -> *mut V {
        self.0.get(place).unwrap_or_else(|| refuse()).0.get()
    }
}
