//! The places of a lazy pool: those that are empty, those with an item, and who waits for one.
use super::queue::Queue;
use super::signs::{Order, Seen, Signs, NONE_MADE, TOLD};
use super::waiters::{Limit, Waiters};
use crate::{library::Place, places::fixed::Fixed, pools::pool::NewError};
use std::iter;
use std::sync::atomic::{AtomicU64, Ordering::SeqCst};

pub(super) struct Closed;

/// A place, if one is free, or that the pool is closed.
pub(super) type Any = Option<Result<Place, Closed>>;

/// The empty places and those with an item: two pools over the same numbers.
pub(super) struct Places {
    empty: Fixed,
    pub(super) made: Fixed,
    /// How many are empty and free. One is counted off before it is pulled.
    empties: Empties,
    order: Order,
    /// The threads that wait, where any may come first.
    waiters: Waiters,
    pub(super) queue: Queue,
}

/// How many places are empty and free, and in the upper half how often one came.
struct Empties(AtomicU64);

impl Empties {
    /// Returns how many there are, and how often one came.
    fn load(&self) -> [u32; 2] {
        let now = self.0.load(SeqCst);
        [now as u32, (now >> 32) as u32]
    }

    /// Counts one less, before it is pulled. Returns `false` if there is none.
    fn take(&self) -> bool {
        let less = |now: u64| (now as u32 != 0).then(|| now - 1);
        self.0.fetch_update(SeqCst, SeqCst, less).is_ok()
    }

    /// Counts one more, after it was returned.
    fn put(&self) {
        self.0.fetch_add((1 << 32) + 1, SeqCst);
    }
}

impl Places {
    /// Creates so many empty places, if they can be counted.
    pub(super) fn new(places: usize, order: Order) -> Result<Places, NewError> {
        let [empty, made] = [Fixed::new(places)?, Fixed::new(places)?];
        while made.pull().is_some() {} // no item is made yet
        let count = u32::try_from(places).map_err(|_| NewError::Memory)?;
        Ok(Places {
            empty,
            made,
            empties: Empties(AtomicU64::new(count.into())),
            order,
            waiters: Waiters::default(),
            queue: Queue::default(),
        })
    }

    pub(super) fn count(&self) -> usize {
        self.made.places()
    }

    /// Returns how many have an item, or are to have one.
    pub(super) fn made(&self) -> usize {
        self.count() - self.empties.load()[0] as usize
    }

    /// Returns how many are in use: pulled of one kind, and not returned as either.
    pub(super) fn in_use(&self) -> usize {
        let pulled = self.made.pulled().wrapping_add(self.empty.pulled());
        pulled.wrapping_sub(self.count())
    }

    pub(super) fn close(&self) {
        self.waiters.close();
        self.queue.wake_all();
    }

    pub(super) fn signs(&self) -> &Signs {
        &self.waiters.signs
    }

    /// Pulls an empty place. `None` if there was none at one moment.
    #[inline(always)]
    pub(super) fn pull_empty(&self) -> Option<Place> {
        self.empties.take().then_some(())?;
        // One is free if it was counted. A look that misses it is made again.
        iter::repeat_with(|| self.empty.pull()).find_map(|place| place)
    }

    /// Pulls a place with an item, if the pool has nothing else to mind.
    #[inline(always)]
    pub(super) fn pull_plain(&self) -> Option<Place> {
        let stops = self.signs().load().has(self.order.0);
        (!stops).then(|| self.made.pull()).flatten()
    }

    /// Pulls a place, one with an item if it can. `None` if all were in use, or others come first.
    pub(super) fn any(&self) -> Any {
        let may_pull = self.signs().load().only_minds(self.order);
        if let Some(place) = may_pull.then(|| self.made.pull()).flatten() {
            return Some(Ok(place));
        }
        if self.others_come_first() {
            return None;
        }
        self.any_later()
    }

    /// Returns whether a pull that doesn't wait is refused, since others do.
    pub(super) fn others_come_first(&self) -> bool {
        let signs = self.signs().load();
        self.is_fair() && signs.waiting() > 0 && !signs.is_closed()
    }

    pub(super) fn is_fair(&self) -> bool {
        self.order == Order::FAIR
    }

    /// Pulls a place as `any` does, also if others wait.
    #[cold]
    pub(super) fn any_later(&self) -> Any {
        loop {
            let (signs, empties) = (self.signs().load_before(), self.empties.load());
            if signs.is_closed() {
                return Some(Err(Closed));
            }
            let is_none_made = signs.has(NONE_MADE) && empties[0] != 0;
            if let Some(place) = (!is_none_made).then(|| self.made.pull()).flatten() {
                return Some(Ok(place));
            }
            if let Some(place) = self.pull_empty() {
                self.signs().none_found(signs);
                return Some(Ok(place));
            }
            if empties[0] == 0 && empties == self.empties.load() {
                return None;
            }
        }
    }

    /// Waits for a place until the limit, in no order. `None` if a last try after it found none.
    pub(super) fn wait(&self, limit: Limit) -> Any {
        self.waiters.wait(limit, || self.any())
    }

    /// Returns a place, and tells those that wait. Returns whether the pool is closed.
    ///
    /// # Safety
    ///
    /// The place is of this pool, and has an item or none as `is_made` says.
    #[inline(always)]
    pub(super) unsafe fn give_back(&self, place: Place, is_made: bool) -> bool {
        if is_made {
            // SAFETY: who pulled a place, as empty or as made, holds it as a made one.
            unsafe { self.made.give_back(place) };
        } else {
            // SAFETY: who pulled a place, as empty or as made, holds it as an empty one.
            unsafe { self.empty.give_back(place) };
            self.empties.put();
        }
        let signs = self.signs().load_after();
        signs.has(TOLD) && self.tell(signs, is_made)
    }

    #[cold]
    fn tell(&self, signs: Seen, is_made: bool) -> bool {
        if is_made {
            self.signs().made_came();
        }
        if self.queue.is_awaited() {
            self.hand();
        }
        if signs.waiting() > 0 && !self.is_fair() {
            self.waiters.wake();
        }
        signs.is_closed()
    }
}
