//! The word of a lazy pool that each pull and each return reads.
use std::sync::atomic::{fence, AtomicU64, Ordering::SeqCst};

pub(super) const CLOSED: u64 = 1 << 31;
const WATCHED: u64 = 1 << 30;
pub(super) const NONE_MADE: u64 = 1 << 29;
/// The pool has a check, or times, or tells events.
pub(super) const MINDS: u64 = 1 << 28;
const WAITING: u64 = MINDS - 1;
/// What a return minds.
pub(super) const TOLD: u64 = CLOSED | WATCHED | NONE_MADE | WAITING;
/// One that is counted in the upper half, and all of these.
const CAME: u64 = 1 << 32;
const ALL_CAME: u64 = !(CAME - 1);

#[derive(Default)]
pub(super) struct Signs(AtomicU64);

/// What the word was at a moment.
#[derive(Clone, Copy)]
pub(super) struct Seen(u64);

/// The order in which those that wait get places, by what stops a pull.
#[derive(Clone, Copy, PartialEq)]
pub(super) struct Order(pub(super) u64);

impl Order {
    /// Whoever comes first to a place that is free.
    pub(super) const ANY: Order = Order(CLOSED | WATCHED | NONE_MADE | MINDS);
    /// First come, first served: so a pull minds also who waits.
    pub(super) const FAIR: Order = Order(CLOSED | WATCHED | NONE_MADE | MINDS | WAITING);
}

impl Signs {
    /// Reads the word, for a pull. What it reads then is no older.
    #[inline(always)]
    pub(super) fn load(&self) -> Seen {
        Seen(self.0.load(SeqCst))
    }

    /// Reads the word, after a place was returned.
    #[inline(always)]
    pub(super) fn load_after(&self) -> Seen {
        fence(SeqCst);
        self.load()
    }

    /// Reads the word, before a place is looked for.
    pub(super) fn load_before(&self) -> Seen {
        let seen = self.load();
        fence(SeqCst);
        seen
    }

    pub(super) fn enter(&self) {
        self.0.fetch_add(1, SeqCst);
        fence(SeqCst);
    }

    pub(super) fn leave(&self) {
        self.0.fetch_sub(1, SeqCst);
    }

    pub(super) fn close(&self) {
        self.0.fetch_or(CLOSED, SeqCst);
        fence(SeqCst);
    }

    pub(super) fn mind(&self) {
        self.0.fetch_or(MINDS, SeqCst);
    }

    /// Notes that a look for a made item, which began after this was seen, found none.
    pub(super) fn none_found(&self, seen: Seen) {
        let sign = if seen.0 & WATCHED == 0 { WATCHED } else { NONE_MADE };
        self.change(|now| ((now ^ seen.0) & (ALL_CAME | WATCHED) == 0).then_some(now | sign));
    }

    pub(super) fn made_came(&self) {
        let cleared = |now: u64| (now & !(WATCHED | NONE_MADE)).wrapping_add(CAME);
        self.change(|now| (now & WATCHED != 0).then(|| cleared(now)));
    }

    fn change(&self, change: impl Fn(u64) -> Option<u64>) {
        let _ = self.0.fetch_update(SeqCst, SeqCst, change);
    }
}

impl Seen {
    /// Returns whether any of these is set.
    pub(super) fn has(self, signs: u64) -> bool {
        self.0 & signs != 0
    }

    /// Returns whether a pull that isn't plain may pull an item at once.
    pub(super) fn only_minds(self, order: Order) -> bool {
        self.0 & order.0 == MINDS
    }

    pub(super) fn is_closed(self) -> bool {
        self.has(CLOSED)
    }

    pub(super) fn waiting(self) -> usize {
        (self.0 & WAITING) as usize
    }
}

#[cfg(test)]
#[path = "../../../unit_tests/signs.rs"]
mod tests;
