//! What each thread has of a pool, by its number.
use crate::once::OnceBox;
use crate::refuse;
use crate::threads::{Number, FIRST, GROUPS};
use std::marker::PhantomData;
use std::sync::atomic::{AtomicUsize, Ordering::Relaxed};

/// What a thread has of a pool. What it keeps lies first: tests of order look for it there.
#[repr(C, align(128))]
pub(crate) struct ThreadSlot<K, O> {
    /// What the thread keeps, as others see it.
    pub(crate) kept: K,
    /// How many places the thread pulled, less those that it returned.
    pulled: AtomicUsize,
    number: usize,
    /// What other threads don't reach.
    own: O,
}

// SAFETY: `own` is reached by the number, which one thread has at a time. So to share it is to send
// it from one to another.
unsafe impl<K: Sync, O: Send> Sync for ThreadSlot<K, O> {}

/// The slot of the thread that calls.
pub(crate) struct Mine<'s, K, O> {
    pub(crate) slot: &'s ThreadSlot<K, O>,
    number: PhantomData<&'s Number>,
}

impl<'s, K, O> Mine<'s, K, O> {
    pub(crate) fn own(self) -> &'s O {
        &self.slot.own
    }
}

impl<K, O> Copy for Mine<'_, K, O> {}

impl<K, O> Clone for Mine<'_, K, O> {
    fn clone(&self) -> Self {
        *self
    }
}

type Made<K, O> = OnceBox<ThreadSlot<K, O>>;

/// The slots of threads in a pool: each is made when its thread first needs it.
pub(crate) struct ThreadSlots<K, O> {
    first: [Made<K, O>; FIRST],
    /// The groups of numbers after the first ones.
    groups: [OnceBox<Vec<Made<K, O>>>; GROUPS],
    /// What threads without a slot pulled.
    pulled: AtomicUsize,
}

impl<K, O> ThreadSlots<K, O> {
    pub(crate) const fn new() -> ThreadSlots<K, O> {
        ThreadSlots {
            first: [const { OnceBox::new() }; FIRST],
            groups: [const { OnceBox::new() }; GROUPS],
            pulled: AtomicUsize::new(0),
        }
    }

    #[inline(always)]
    pub(crate) fn get<'s>(&'s self, number: &'s Number) -> Option<Mine<'s, K, O>> {
        let slot = match self.first.get(number.get()) {
            Some(first) => first.get()?,
            None => self.later(number.get())?.get()?,
        };
        if slot.number != number.get() {
            refuse();
        }
        Some(Mine { slot, number: PhantomData })
    }

    /// Returns where a thread slot lies that isn't among the first ones, if its group was made.
    #[inline(never)]
    fn later(&self, number: usize) -> Option<&Made<K, O>> {
        let group = (number / FIRST).ilog2();
        self.groups.get(group as usize)?.get()?.get(number - (FIRST << group))
    }

    /// Makes the thread slot of a number. `None` if memory is refused.
    #[cold]
    pub(crate) fn make(&self, number: &Number, kept: K, own: O) -> Option<&ThreadSlot<K, O>> {
        let (number, pulled) = (number.get(), AtomicUsize::new(0));
        let thread_slot = ThreadSlot { kept, pulled, number, own };
        if let Some(first) = self.first.get(number) {
            return first.set(thread_slot);
        }
        let group = (number / FIRST).ilog2();
        let mut thread_slots = Vec::new();
        thread_slots.try_reserve_exact(FIRST << group).ok()?;
        thread_slots.resize_with(FIRST << group, OnceBox::new);
        self.groups[group as usize].set(thread_slots)?;
        self.later(number)?.set(thread_slot)
    }

    pub(crate) fn all(&self) -> impl Iterator<Item = &ThreadSlot<K, O>> {
        let groups = self.groups.iter().filter_map(OnceBox::get);
        self.first.iter().chain(groups.flatten()).filter_map(OnceBox::get)
    }

    /// Counts that a thread pulled places or returned them, at its slot if it has one.
    #[inline(always)]
    pub(crate) fn count(&self, mine: Option<Mine<'_, K, O>>, more: isize) {
        match mine.map(|mine| &mine.slot.pulled) {
            // The thread alone changes it.
            Some(own) => own.store(own.load(Relaxed).wrapping_add_signed(more), Relaxed),
            None => _ = self.pulled.fetch_add(more as usize, Relaxed),
        }
    }

    /// Returns how many places were pulled and not returned, as each thread counts it.
    pub(crate) fn pulled(&self) -> usize {
        let counts = self.all().map(|thread_slot| &thread_slot.pulled).chain([&self.pulled]);
        counts.fold(0, |sum, count| sum.wrapping_add(count.load(Relaxed)))
    }
}
