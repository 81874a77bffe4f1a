//! A place that a thread of a fixed pool keeps, where others may take it.
use crate::atomics::{AtomicU64, Ordering::AcqRel, Ordering::Acquire, Ordering::Release};
use crate::library::Place;
use std::cell::Cell;

/// A place that a thread keeps, or none, and how often it kept one: so others see that it did.
pub(super) struct Kept(AtomicU64);

impl Kept {
    /// What stands for no place, before any was kept.
    pub(super) const NONE: u64 = u32::MAX as u64;

    pub(super) fn new() -> Kept {
        Kept(AtomicU64::new(Kept::NONE))
    }

    /// Takes the place, for any thread. If there is none, this returns how often one was kept.
    pub(super) fn take(&self) -> Result<Place, u64> {
        let mut seen = self.load();
        while seen & Kept::NONE != Kept::NONE {
            let empty = seen | Kept::NONE;
            match self.0.compare_exchange(seen, empty, AcqRel, Acquire) {
                // SAFETY: it was kept here, and nobody else took it.
                Ok(_) => return Ok(unsafe { Place::held((seen & Kept::NONE) as usize) }),
                Err(now) => seen = now,
            }
        }
        Err(seen >> 32)
    }

    /// Takes the place, for the thread that keeps it.
    #[inline(always)]
    pub(super) fn take_own(&self, empty: u64) -> Option<Place> {
        if self.load() == empty {
            return None;
        }
        let seen = self.0.swap(empty, AcqRel);
        // SAFETY: it was kept here, and no other thread took it.
        (seen != empty).then(|| unsafe { Place::held((seen & Kept::NONE) as usize) })
    }

    /// Keeps a place for the thread itself, and counts it, or returns it if there is one.
    #[inline(always)]
    pub(super) fn keep(&self, place: Place, empty: &Cell<u64>) -> Result<(), Place> {
        let number = place.number() as u64;
        if self.load() != empty.get() || number >= Kept::NONE {
            return Err(place);
        }
        empty.set(empty.get().wrapping_add(1 << 32));
        self.0.store(empty.get() ^ Kept::NONE | number, Release);
        Ok(())
    }

    #[inline(always)]
    fn load(&self) -> u64 {
        self.0.load(Acquire)
    }
}
