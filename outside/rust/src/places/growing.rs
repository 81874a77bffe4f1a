//! Which places of a pool that grows are held.
mod find;
mod parts;
mod thread_slot;

use crate::atomics::{AtomicUsize, Ordering::Relaxed, Ordering::SeqCst};
use crate::library::{calls::PAGE, OwnHandle, Place};
use crate::threads::{self, Number};
use crate::{places::slots::OwnLines, refuse};
use parts::Part;
pub(crate) use parts::{PartName, Parts};
use std::ptr::NonNull;
use std::sync::{Arc, Mutex};
use thread_slot::{Mine, ThreadSlots, Way};

pub(crate) struct Growing {
    parts: Parts<Part>,
    thread_slots: ThreadSlots,
    news: OwnLines<News>,
}

/// What who makes an item reads.
#[derive(Default)]
struct News {
    /// How often a part came to have a place that may be found.
    changes: AtomicUsize,
    /// The places whose items weren't made, since `init` panicked, and how many they are.
    bare: Mutex<Vec<usize>>,
    bare_count: AtomicUsize,
}

/// The right to a place that was pulled just now. It has no item if nobody had it, or `init` panicked.
pub(crate) struct PulledPlace {
    pub(crate) at: usize,
    pub(crate) is_made: bool,
}

/// The right to a place, and where its item lies. What returns the place or keeps it spends this.
pub(crate) struct Held {
    pub(crate) at: usize,
    pub(crate) item: NonNull<()>,
}

// SAFETY: only who has the place goes to the item, if that may be sent to where he is.
unsafe impl Send for Held {}

impl Growing {
    pub(crate) fn new() -> Growing {
        let news = OwnLines(News::default());
        Growing { parts: Parts::new(), thread_slots: ThreadSlots::new(), news }
    }

    /// Returns how many places there are, have an item, and were pulled and not returned.
    pub(crate) fn counts(&self) -> [usize; 3] {
        let parts = || self.parts.all(0).map(|(_, part)| part);
        let given: usize = parts().map(Part::given).sum();
        let made = given.saturating_sub(self.news.0.bare_count.load(Relaxed));
        let in_use = self.thread_slots.pulled().wrapping_sub(self.thread_slots.kept());
        [parts().map(|part| part.library.places()).sum(), made, in_use]
    }

    /// Pulls a place. `item` finds its item, if the thread doesn't keep it, and pulls it if need be.
    #[inline(always)]
    pub(crate) fn pull(&self, item: impl Fn(Option<PulledPlace>) -> Held) -> Held {
        threads::with_known(|number| {
            let mine = self.thread_slots.get(number);
            let kept = mine.and_then(Mine::take);
            kept.unwrap_or_else(|| self.pull_other(mine, item))
        })
    }

    /// Pulls a place that the thread doesn't keep.
    #[inline(never)]
    fn pull_other<I: Fn(Option<PulledPlace>) -> Held>(&self, mine: Option<Mine>, item: I) -> Held {
        // A thread that isn't noted has no counts of its own yet.
        let mine = mine.filter(|mine| mine.is_noted());
        if let Some(mine) = mine.filter(|mine| mine.only_pulls()) {
            self.pull_ahead(mine, &item);
            if let Some(held) = mine.take() {
                return held;
            }
        }
        let near = |mine| self.pull_near(mine).or_else(|| self.unmade_near(mine));
        item(mine.and_then(near))
    }

    /// Pulls as many returned places as a thread that only pulls may keep, but one.
    #[inline(never)]
    fn pull_ahead(&self, mine: Mine<'_>, item: impl Fn(Option<PulledPlace>) -> Held) {
        while mine.has_room() {
            let Some(pulled) = self.pull_near(mine) else { break };
            let kept = mine.keep(item(Some(pulled)));
            debug_assert!(kept.is_ok(), "there was room");
        }
    }

    /// Pulls a place that was returned, at the part of the thread's last pull, by its handle.
    #[inline(always)]
    fn pull_near(&self, mine: Mine<'_>) -> Option<PulledPlace> {
        let way = &mut *mine.way()?;
        let (name, page) = (way.part?, way.page);
        let part = self.part(name);
        part.library.may_have_some().then_some(())?;
        let place = part.library.pull(way.own_handle(name)?, page)?;
        way.go_on(place.number() / PAGE, part.pages());
        mine.count_pull();
        self.thread_slots.count(Some(mine), 1);
        Some(name.pulled(place))
    }

    /// Pulls a place that was returned, or one without an item. If there is none, this returns which
    /// part has to be made, or `None` if there are too many.
    #[cold]
    pub(crate) fn pull_far(self: &Arc<Self>) -> Result<PulledPlace, Option<PartName>> {
        threads::with(|number| {
            let mine = number.and_then(|number| self.thread_slots.get_or_make(number));
            if let Some(mine) = mine.filter(|mine| !mine.is_noted()) {
                self.note(mine); // where that is refused memory, it comes here again
            }
            let look = |way: &mut Way, mine: Option<Mine<'_>>| {
                let Some(found) = self.find(way) else { return self.unmade(way) };
                mine.into_iter().for_each(Mine::count_pull);
                Ok(found)
            };
            let pulled = match mine.and_then(Mine::way) {
                Some(mut way) => look(&mut way, mine),
                None => look(&mut Way::new(PartName::first(0), false), None),
            };
            pulled.inspect(|_| self.thread_slots.count(mine, 1))
        })
    }

    /// Returns a place, which the thread may keep.
    ///
    /// # Safety
    ///
    /// The place is of this pool.
    #[inline(always)]
    pub(crate) unsafe fn give_back(self: &Arc<Self>, held: Held) {
        threads::with_known(|number| {
            let mine = self.thread_slots.get(number);
            let kept = match mine {
                Some(mine) => mine.keep(held),
                None => Err(held),
            };
            // SAFETY: the caller says that it is of this pool.
            kept.unwrap_or_else(|held| unsafe { self.give_back_other(mine, held) });
        });
    }

    /// Returns a place of a thread that keeps as many as it may, or isn't noted.
    ///
    /// # Safety
    ///
    /// The place is of this pool.
    #[inline(never)]
    unsafe fn give_back_other(self: &Arc<Self>, mine: Option<Mine<'_>>, held: Held) {
        // A thread that isn't noted keeps this one, which it doesn't count.
        let mine = mine.filter(|mine| mine.is_noted());
        // SAFETY: the caller says that it is of this pool.
        unsafe { self.give_back_near(mine, held) };
        if let Some(mine) = mine.filter(|mine| mine.count_return()) {
            let last = mine.take();
            self.return_all(mine);
            last.into_iter().for_each(|last| _ = mine.keep(last)); // there is room
        }
    }

    /// Returns a place by the thread's handle of its part, or as `give_back_far` does.
    ///
    /// # Safety
    ///
    /// The place is of this pool.
    #[inline(always)]
    unsafe fn give_back_near(self: &Arc<Self>, mine: Option<Mine<'_>>, held: Held) {
        let mut way = mine.and_then(Mine::way);
        let name = PartName::of(held.at).0;
        match way.as_mut().and_then(|way| way.own_handle(name)) {
            // SAFETY: the handle is of the place's part, and the caller says it of the place.
            Some(handle) => unsafe { self.give_back_by(handle, mine, held) },
            None => {
                drop(way);
                // SAFETY: the caller says that it is of this pool.
                unsafe { self.give_back_far(held) }
            }
        }
    }

    /// Notes a thread, which keeps the place, or opens a handle of its part and returns it.
    ///
    /// # Safety
    ///
    /// The place is of this pool.
    #[cold]
    unsafe fn give_back_far(self: &Arc<Self>, held: Held) {
        threads::with(|number| {
            let mine = number.and_then(|number| self.thread_slots.get_or_make(number));
            let first = mine.filter(|mine| !mine.is_noted() && self.note(*mine).is_some());
            if let Some(mine) = first {
                let _ = mine.keep(held); // there is room
                return;
            }
            let mine = mine.filter(|mine| mine.is_noted());
            let name = PartName::of(held.at).0;
            // SAFETY: the handles are of the place's part, and the caller says it of the place.
            let by = |handle: &mut _| unsafe { self.give_back_by(handle, mine, held) };
            match mine.and_then(Mine::way) {
                Some(mut way) => by(way.handle(name, &self.part(name).library)),
                None => by(&mut None),
            }
        });
    }

    /// Returns a place by this handle, and counts it for the thread.
    ///
    /// # Safety
    ///
    /// The place is of this pool, and the handle of its part.
    #[inline(always)]
    unsafe fn give_back_by(&self, handle: &mut OwnHandle, mine: Option<Mine<'_>>, held: Held) {
        self.thread_slots.count(mine, -1);
        let (name, place) = PartName::of(held.at);
        let count_change = || _ = self.news.0.changes.fetch_add(1, SeqCst);
        // SAFETY: `held` was the right to this place.
        let place = unsafe { Place::held(place) };
        let library = &self.part(name).library;
        // SAFETY: the caller says that the handle and the place are of this part.
        unsafe { library.give_back(handle, place, count_change) };
    }

    /// Notes that a thread keeps places, which it returns at its end. `None` if memory is refused.
    fn note(self: &Arc<Self>, mine: Mine<'_>) -> Option<()> {
        threads::note(Arc::downgrade(self))?;
        mine.begin();
        Some(())
    }

    #[inline(never)]
    fn return_all(self: &Arc<Self>, mine: Mine<'_>) {
        while let Some(held) = mine.take() {
            // SAFETY: it was returned to this pool.
            unsafe { self.give_back_near(Some(mine), held) };
        }
    }

    pub(crate) fn return_kept(self: &Arc<Self>, number: &Number) {
        if let Some(ended) = self.thread_slots.get(number) {
            self.return_all(ended);
            ended.end();
        }
    }

    /// Makes a part of so many places, if it isn't there. `None` if memory is refused.
    pub(crate) fn make(&self, name: PartName, places: usize) -> Option<()> {
        self.parts.make(name, || Part::new(places))
    }

    #[inline(always)]
    fn part(&self, name: PartName) -> &Part {
        self.parts.get(name).unwrap_or_else(|| refuse())
    }
}
