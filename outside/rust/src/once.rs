//! A box that is set once, and never waited for.
use crate::atomics::{self, Step};
use std::marker::PhantomData;
use std::ptr::{self, NonNull};
use std::sync::atomic::{AtomicPtr, Ordering::AcqRel, Ordering::Acquire};
use std::sync::Mutex;

/// A box that many threads may make and one of them sets. What the others made is dropped.
pub(crate) struct OnceBox<T> {
    set: AtomicPtr<[T; 1]>,
    /// Threads share the value, and one of them drops what another one made.
    value: PhantomData<(Box<T>, Mutex<T>)>,
}

impl<T> OnceBox<T> {
    pub(crate) const fn new() -> OnceBox<T> {
        OnceBox { set: AtomicPtr::new(ptr::null_mut()), value: PhantomData }
    }

    #[inline(always)]
    pub(crate) fn get(&self) -> Option<&T> {
        let set = NonNull::new(self.set.load(Acquire))?;
        // SAFETY: it was made by `Box::into_raw`, and is dropped with the `OnceBox`.
        let [value] = unsafe { set.as_ref() };
        Some(value)
    }

    /// Sets the value if none is set, and returns the one that is. `None` if memory is refused.
    pub(crate) fn set(&self, value: T) -> Option<&T> {
        atomics::before(Step::Sets);
        let made = Box::into_raw(boxed(value)?);
        if self.set.compare_exchange(ptr::null_mut(), made, AcqRel, Acquire).is_err() {
            // SAFETY: nobody else has it.
            drop(unsafe { Box::from_raw(made) });
        }
        self.get()
    }
}

impl<T> Drop for OnceBox<T> {
    fn drop(&mut self) {
        if let Some(set) = NonNull::new(*self.set.get_mut()) {
            // SAFETY: it was made by `Box::into_raw`, and nobody borrows it any more.
            drop(unsafe { Box::from_raw(set.as_ptr()) });
        }
    }
}

/// Boxes a value. `None` if memory is refused.
fn boxed<T>(value: T) -> Option<Box<[T; 1]>> {
    let mut one = Vec::new();
    one.try_reserve_exact(1).ok()?;
    one.push(value);
    one.into_boxed_slice().try_into().ok()
}
