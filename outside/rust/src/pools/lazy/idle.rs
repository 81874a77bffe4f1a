//! How long items are free, and how long they are there.
use super::held::{keep_if, Held};
use super::LazyPool;
use std::sync::atomic::{AtomicU64, Ordering::Relaxed};
use std::time::{Duration, Instant};

/// An item and its times, in nanoseconds since the pool was made.
pub struct Entry<T> {
    pub(super) item: Option<T>,
    /// When it was made, if the pool has a time of life.
    made: u64,
    /// When it came back, or 0 if nobody noted that.
    came: u64,
}

impl<T> Entry<T> {
    pub(super) const EMPTY: Entry<T> = Entry { item: None, made: 0, came: 0 };
}

pub(super) struct Times {
    begun: Instant,
    pub(super) idle: Option<Duration>,
    pub(super) life: Option<Duration>,
    /// Since when it is noted when items come back, or 0 if it isn't.
    noted: AtomicU64,
}

impl Default for Times {
    fn default() -> Self {
        Times { begun: Instant::now(), idle: None, life: None, noted: AtomicU64::new(0) }
    }
}

impl Times {
    pub(super) fn minds(&self) -> bool {
        self.idle.is_some() || self.life.is_some()
    }

    fn now(&self) -> u64 {
        let now = self.begun.elapsed().as_nanos();
        u64::try_from(now).unwrap_or(u64::MAX).max(1)
    }

    /// Begins to note when items come back, if it didn't, and returns the time.
    fn begin(&self) -> u64 {
        let now = self.now();
        let _ = self.noted.compare_exchange(0, now, Relaxed, Relaxed);
        now
    }

    pub(super) fn made<T>(&self, entry: &mut Entry<T>) {
        if self.life.is_some() {
            entry.made = self.now();
        }
        self.came(entry);
    }

    pub(super) fn came<T>(&self, entry: &mut Entry<T>) {
        if self.idle.is_some() || self.noted.load(Relaxed) != 0 {
            entry.came = self.now();
        }
    }

    /// Returns whether an item is past its time of life.
    pub(super) fn is_past<T>(&self, entry: &Entry<T>) -> bool {
        self.life.is_some_and(|life| since(entry.made, self.now()) >= life)
    }

    /// Returns whether an item that was free is past its time of life, or was free for too long.
    pub(super) fn is_over<T>(&self, entry: &Entry<T>) -> bool {
        let is_idle = |idle| since(entry.came, self.now()) >= idle;
        self.is_past(entry) || self.idle.is_some_and(is_idle)
    }

    /// Returns how long an item was free, as far as it was noted.
    fn idle<T>(&self, entry: &Entry<T>, now: u64) -> Duration {
        since(entry.came.max(self.noted.load(Relaxed)), now)
    }
}

fn since(begun: u64, now: u64) -> Duration {
    Duration::from_nanos(now.saturating_sub(begun))
}

impl<T, E> LazyPool<T, E> {
    /// Drops the free items for which this returns `false`, and returns how many it dropped. It
    /// gets each item, and how long that was free. All that it looks at are in use until it ends.
    ///
    /// The pool notes when items come back from the first such call on, or if its builder has an
    /// idle time. What came back before counts from that call on. Each return reads the clock then.
    ///
    /// # Examples
    ///
    /// ```
    /// # use kundratu_pool::LazyPool;
    /// let pool = LazyPool::<u32, ()>::new(4, || Ok(7), |_| true)?;
    /// pool.fill(3).expect("none fails");
    /// assert_eq!(pool.retain(|number, _idle| *number != 7), 3);
    /// assert_eq!(pool.status().made, 0);
    /// # Ok::<(), kundratu_pool::NewError>(())
    /// ```
    pub fn retain(&self, mut is_kept: impl FnMut(&mut T, Duration) -> bool) -> usize {
        let now = self.settings.times.begin();
        self.places.signs().mind();
        let (mut kept, mut dropped) = (Vec::new(), 0);
        // The last of them has no room to be kept if memory is refused.
        while kept.try_reserve(1).is_ok() {
            let Some(mut held) = Held::made(self) else { break };
            let idle = self.settings.times.idle(held.entry(), now);
            if keep_if(&mut held.entry().item, |item| is_kept(item, idle)) {
                kept.push(held);
            } else {
                dropped += 1;
            }
        }
        dropped
    }

    /// Drops the items that were free for so long, but leaves the least number that the builder
    /// named. Returns how many it dropped. How long they were free is noted as by
    /// [`retain`](LazyPool::retain).
    pub fn clear_idle(&self, time: Duration) -> usize {
        self.retain(|_, idle| idle < time || self.places.made() <= self.settings.least)
    }
}
