//! Threads that wait until a place is returned: an event count of two words, and where they sleep.
use super::signs::Signs;
use crate::lock;
use std::sync::atomic::{AtomicBool, AtomicUsize, Ordering::SeqCst};
use std::sync::{Condvar, Mutex};
use std::time::{Duration, Instant};

/// When a pull waits no longer, if ever.
pub(super) type Limit = Option<Instant>;

#[derive(Default)]
pub(super) struct Waiters {
    /// How many threads wait, beside other things.
    pub(super) signs: Signs,
    /// How many returns were told, since somebody waited.
    told: AtomicUsize,
    /// How many threads sleep, and whether one was woken that hasn't looked yet, as the lock guards it.
    asleep: AtomicUsize,
    is_woken: AtomicBool,
    lock: Mutex<()>,
    wakes: Condvar,
}

impl Waiters {
    /// Makes this try until it has an answer. `None` if a last try after the limit has none.
    #[cold]
    pub(super) fn wait<A>(&self, limit: Limit, attempt: impl Fn() -> Option<A>) -> Option<A> {
        self.signs.enter();
        let mut slept = None;
        loop {
            let seen = self.told.load(SeqCst);
            let is_last = left(limit).is_zero();
            let answer = attempt();
            if answer.is_some() || is_last {
                self.signs.leave();
                let told = |slept| self.told.load(SeqCst).wrapping_sub(slept);
                if answer.is_none() || slept.is_some_and(|slept| told(slept) > 1) {
                    self.pass_on();
                }
                return answer;
            }
            slept = self.sleep(seen, limit).then_some(seen);
        }
    }

    /// Sleeps until a return is told or the limit is over. Returns `false` if one was told since `seen`.
    fn sleep(&self, seen: usize, limit: Limit) -> bool {
        let locked = lock(&self.lock);
        self.asleep.fetch_add(1, SeqCst);
        if self.told.load(SeqCst) != seen {
            self.asleep.fetch_sub(1, SeqCst);
            return false;
        }
        let _locked = self.wakes.wait_timeout(locked, left(limit));
        self.is_woken.store(false, SeqCst);
        self.asleep.fetch_sub(1, SeqCst);
        true
    }

    fn pass_on(&self) {
        if self.signs.load_after().waiting() > 0 {
            self.wake();
        }
    }

    /// Wakes one that waits, after a place was returned.
    #[cold]
    pub(super) fn wake(&self) {
        self.told.fetch_add(1, SeqCst);
        let is_due = || self.asleep.load(SeqCst) != 0 && !self.is_woken.load(SeqCst);
        let locked = is_due().then(|| self.lock.lock());
        if locked.is_some() && is_due() {
            self.is_woken.store(true, SeqCst);
            self.wakes.notify_one();
        }
    }

    pub(super) fn close(&self) {
        self.signs.close();
        self.told.fetch_add(1, SeqCst);
        drop(self.lock.lock());
        self.wakes.notify_all();
    }
}

/// Returns how long a pull may still wait.
pub(super) fn left(limit: Limit) -> Duration {
    limit.map_or(Duration::MAX, |limit| limit.saturating_duration_since(Instant::now()))
}

#[cfg(test)]
#[path = "../../../unit_tests/waiters.rs"]
mod tests;
