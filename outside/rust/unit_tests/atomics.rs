//! The atomics of the code under test. Each use of them is a step, before which others may take
//! theirs. In a thread that delays its writes, as processors do, others see a write of it that isn't
//! sequentially consistent at its next fence, or at its next step that reads and writes.
use super::tests::{locks, looked, returns, sets, step};
use std::cell::{Cell, RefCell};
use std::sync::atomic;
pub(crate) use std::sync::atomic::Ordering;

thread_local! {
    /// Whether this thread delays its writes, and those that it did.
    static DELAYS: Cell<bool> = const { Cell::new(false) };
    static DELAYED: RefCell<Vec<Delayed>> = const { RefCell::new(Vec::new()) };
}

/// A write that no other thread has seen: where, of what, and how it is made.
struct Delayed(usize, u64, Box<dyn FnOnce()>);

pub(crate) enum Step {
    Returns,
    Locks,
    Sets,
}

pub(crate) fn before(step: Step) {
    match step {
        Step::Returns => returns(),
        Step::Locks => locks(),
        Step::Sets => sets(),
    }
}

pub(crate) fn look<P>(look: impl FnOnce() -> Option<P>) -> Option<P> {
    step();
    let found = look();
    looked(found.is_some());
    found
}

/// From now on this thread delays its writes, or not.
pub(crate) fn delay(delays: bool) {
    DELAYS.set(delays);
    show();
}

/// Makes all writes that were delayed.
pub(crate) fn show() {
    let delayed = DELAYED.try_with(|delayed| delayed.take());
    let delayed = delayed.into_iter().flatten();
    delayed.for_each(|Delayed(_, _, write)| write());
}

pub(crate) fn fence(order: Ordering) {
    step();
    atomic::fence(order);
    show();
}

macro_rules! atomic {
    ($name:ident, $value:ty) => {
        #[derive(Default)]
        pub(crate) struct $name(atomic::$name);

        #[allow(dead_code, trivial_numeric_casts, clippy::unnecessary_cast)]
        impl $name {
            pub(crate) const fn new(value: $value) -> Self {
                $name(atomic::$name::new(value))
            }

            fn address(&self) -> usize {
                std::ptr::from_ref(self) as usize
            }

            pub(crate) fn load(&self, order: Ordering) -> $value {
                step();
                let own = DELAYED.try_with(|delayed| {
                    let delayed = delayed.borrow();
                    let mut own = delayed.iter().rev();
                    own.find(|own| own.0 == self.address()).map(|own| own.1)
                });
                let own = own.ok().flatten();
                own.map_or_else(|| self.0.load(order), |own| own as $value)
            }

            pub(crate) fn store(&self, value: $value, order: Ordering) {
                step();
                if !DELAYS.get() || order == Ordering::SeqCst {
                    show();
                    return self.0.store(value, order);
                }
                let at = self.address();
                // SAFETY: a test shows its threads' writes before it drops what they wrote.
                let cell = unsafe { &*std::ptr::from_ref(&self.0) };
                let write = Box::new(move || cell.store(value, order));
                DELAYED.with_borrow_mut(|delayed| delayed.push(Delayed(at, value as u64, write)));
            }

            pub(crate) fn swap(&self, value: $value, order: Ordering) -> $value {
                step();
                show();
                self.0.swap(value, order)
            }

            pub(crate) fn compare_exchange(
                &self,
                old: $value,
                new: $value,
                order: Ordering,
                refused: Ordering,
            ) -> Result<$value, $value> {
                step();
                show();
                self.0.compare_exchange(old, new, order, refused)
            }

            pub(crate) fn fetch_add(&self, more: $value, order: Ordering) -> $value {
                step();
                show();
                self.0.fetch_add(more, order)
            }

            pub(crate) fn fetch_sub(&self, less: $value, order: Ordering) -> $value {
                step();
                show();
                self.0.fetch_sub(less, order)
            }

            pub(crate) fn fetch_update(
                &self,
                order: Ordering,
                refused: Ordering,
                new: impl FnMut($value) -> Option<$value>,
            ) -> Result<$value, $value> {
                step();
                show();
                self.0.fetch_update(order, refused, new)
            }
        }
    };
}

atomic!(AtomicU64, u64);
atomic!(AtomicUsize, usize);
