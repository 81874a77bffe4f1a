//! What a pool that waits is written as by hand: a vector of kept items behind a mutex, and a condition variable on which those wait
//! that found none. The original has no such pool.
use std::ops::{Deref, DerefMut};
use std::sync::{Condvar, Mutex, PoisonError};

/// Items that lie in the pool, how many were made, and how many threads wait.
struct Kept {
    items: Vec<u64>,
    made: usize,
    waiting: usize,
}

/// A pool of at most so many items, each made as 0 when it is first needed.
pub struct WaitingPool {
    kept: Mutex<Kept>,
    returned: Condvar,
    most: usize,
}

impl WaitingPool {
    pub fn new(most: usize) -> WaitingPool {
        let kept = Kept {
            items: Vec::new(),
            made: 0,
            waiting: 0,
        };
        WaitingPool {
            kept: Mutex::new(kept),
            returned: Condvar::new(),
            most,
        }
    }

    /// Pulls an item, or waits for one.
    pub fn pull(&self) -> WaitingReusable<'_> {
        let mut kept = self.kept.lock().unwrap_or_else(PoisonError::into_inner);
        let value = loop {
            if let Some(value) = kept.items.pop() {
                break value;
            }
            if kept.made < self.most {
                kept.made += 1;
                break 0;
            }
            kept.waiting += 1;
            kept = self
                .returned
                .wait(kept)
                .unwrap_or_else(PoisonError::into_inner);
            kept.waiting -= 1;
        };
        WaitingReusable { pool: self, value }
    }
}

/// A pulled item. Its drop sets it to 0, brings it back, and wakes one that waits.
pub struct WaitingReusable<'p> {
    pool: &'p WaitingPool,
    value: u64,
}

impl Deref for WaitingReusable<'_> {
    type Target = u64;

    fn deref(&self) -> &u64 {
        &self.value
    }
}

impl DerefMut for WaitingReusable<'_> {
    fn deref_mut(&mut self) -> &mut u64 {
        &mut self.value
    }
}

impl Drop for WaitingReusable<'_> {
    fn drop(&mut self) {
        let mut kept = self
            .pool
            .kept
            .lock()
            .unwrap_or_else(PoisonError::into_inner);
        kept.items.push(0);
        let is_awaited = kept.waiting > 0;
        drop(kept);
        // a wake-up asks the system, so it is left out where nobody waits
        if is_awaited {
            self.pool.returned.notify_one();
        }
    }
}
