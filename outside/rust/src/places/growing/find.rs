//! How a pull finds a place that its thread doesn't keep, or one without an item.
use super::thread_slot::{Mine, Way};
use super::{Growing, PartName, PulledPlace};
use crate::atomics::{Ordering::Relaxed, Ordering::SeqCst};
use crate::{library::calls::PAGE, lock};

/// How often all parts are looked at before a fresh place is given, if others return places.
const ROUNDS: usize = 32;

/// What a look at all parts found.
enum Look {
    Found(PulledPlace),
    /// Some part said that a place was returned, but others had pulled it.
    Refused,
    Empty,
}

impl Growing {
    /// Gives a place of the thread's part without an item, if none was returned since its last look.
    #[inline(always)]
    pub(super) fn unmade_near(&self, mine: Mine<'_>) -> Option<PulledPlace> {
        let way = &mut *mine.way()?;
        let is_none_returned = self.changes_since_none(way).is_none();
        let pulled = is_none_returned.then(|| self.unmade(way).ok()).flatten()?;
        self.thread_slots.count(Some(mine), 1);
        Some(pulled)
    }

    /// Finds a place that was returned.
    pub(super) fn find(&self, way: &mut Way) -> Option<PulledPlace> {
        for _ in 0..ROUNDS {
            let changes = self.changes_since_none(way)?;
            match self.look(way) {
                Look::Found(pulled) => return Some(pulled),
                Look::Refused => {}
                Look::Empty => way.changes_at_none = Some(changes),
            }
        }
        None
    }

    /// Returns how many changes there were, if any since a look of the thread that found no place.
    #[inline(always)]
    fn changes_since_none(&self, way: &Way) -> Option<usize> {
        let changes = self.news.0.changes.load(SeqCst);
        (way.changes_at_none != Some(changes)).then_some(changes)
    }

    /// Gives a place whose `init` panicked, or that nobody had. Fails as `pull_far` does.
    #[inline(always)]
    pub(super) fn unmade(&self, way: &mut Way) -> Result<PulledPlace, Option<PartName>> {
        let unmade = |at| PulledPlace { at, is_made: false };
        if let Some(at) = self.take_bare() {
            return Ok(unmade(at));
        }
        while let Some(part) = self.parts.get(way.last) {
            if let Some(place) = part.fresh() {
                return Ok(unmade(way.last.at(place)));
            }
            way.last = way.last.next().ok_or(None)?;
        }
        Err(Some(way.last))
    }

    /// Looks at each part that says that a place was returned.
    fn look(&self, way: &mut Way) -> Look {
        let mut look = Look::Empty;
        let home = way.last.shard();
        for (name, part) in self.parts.all(home) {
            if !part.library.may_have_some() {
                continue;
            }
            let page = way.page;
            if let Some(place) = part.library.pull(way.handle(name, &part.library), page) {
                way.part = Some(name);
                way.go_on(place.number() / PAGE, part.pages());
                return Look::Found(name.pulled(place));
            }
            look = Look::Refused;
        }
        look
    }

    /// Leaves a place without an item to a later pull, or to none if memory is refused.
    ///
    /// # Safety
    ///
    /// The place was pulled of this pool, and nobody has it any more.
    #[cold]
    pub(crate) unsafe fn leave_bare(&self, at: usize) {
        self.thread_slots.count(None, -1);
        self.with_bare(|bare| bare.try_reserve(1).is_ok().then(|| bare.push(at)));
    }

    /// Makes this call with the places that have no items, and counts them.
    fn with_bare<A>(&self, call: impl FnOnce(&mut Vec<usize>) -> A) -> A {
        let news = &self.news.0;
        let mut bare = lock(&news.bare);
        let answer = call(&mut bare);
        news.bare_count.store(bare.len(), Relaxed);
        answer
    }

    /// Takes a place that has no item, if one was left.
    fn take_bare(&self) -> Option<usize> {
        let is_left = self.news.0.bare_count.load(Relaxed) > 0;
        is_left.then(|| self.with_bare(Vec::pop)).flatten()
    }
}
