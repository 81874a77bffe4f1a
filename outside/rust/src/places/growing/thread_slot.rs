//! What a thread has of a pool that grows: the places that it keeps, and its way to others.
use super::{Held, PartName};
use crate::library::{Library, OwnHandle};
use crate::threads::{slots, Number};
use std::cell::{Cell, RefCell, RefMut};
use std::sync::atomic::{AtomicUsize, Ordering::Relaxed};

/// How many places a thread keeps.
const KEPT: usize = 8;
/// How many it keeps where no thread keeps places: the next one has to be noted first.
const UNUSED: usize = usize::MAX;
/// How many places a thread pulls at one page, if others return them, and how far it goes then.
const TOGETHER: usize = 8;
const APART: usize = 17;
/// After so many pulls a thread only pulls, if it returned no place between but what it keeps, and
/// after so many returns it only returns, if it pulled none between but what it kept.
const PULLS: u16 = 1_024;
const RETURNS: u16 = 1_024;

/// What a thread has that others don't reach.
pub(super) struct Own {
    /// The places that it keeps. The one that was returned last comes last.
    kept: [Cell<Option<Held>>; KEPT],
    /// How often it pulled since its last return, and returned since its last pull, but what it kept.
    pulls: Cell<u16>,
    returns: Cell<u16>,
    way: RefCell<Way>,
}

/// The slots of threads. Others see of a thread how many places it keeps.
pub(super) type ThreadSlots = slots::ThreadSlots<AtomicUsize, Own>;
pub(super) type Mine<'s> = slots::Mine<'s, AtomicUsize, Own>;

/// How a thread comes to places that it doesn't keep.
#[derive(Default)]
pub(super) struct Way {
    /// The part of the last pull, where the next one looks first, and the page where that begins.
    pub(super) part: Option<PartName>,
    pub(super) page: usize,
    /// How many changes the pool had before a look at all parts that found none.
    pub(super) changes_at_none: Option<usize>,
    /// The part of the thread's shard where it looks for a place that nobody had.
    pub(super) last: PartName,
    /// How many more places it pulls at this page.
    left: usize,
    /// Its handles of the parts, by their numbers.
    handles: Vec<OwnHandle>,
    /// Whether it opens handles of its own.
    opens: bool,
    none: OwnHandle,
}

impl ThreadSlots {
    /// Returns a thread's slot, which is made if it isn't there. `None` if memory is refused.
    pub(super) fn get_or_make<'s>(&'s self, number: &'s Number) -> Option<Mine<'s>> {
        self.get(number).or_else(|| {
            let way = RefCell::new(Way::new(PartName::first(number.get()), true));
            let [pulls, returns] = Default::default();
            let own = Own { kept: Default::default(), pulls, returns, way };
            self.make(number, AtomicUsize::new(UNUSED), own)?;
            self.get(number)
        })
    }

    /// Returns how many places threads keep.
    pub(super) fn kept(&self) -> usize {
        let kept = self.all().map(|slot| slot.kept.load(Relaxed));
        kept.filter(|kept| *kept != UNUSED).sum()
    }
}

impl<'s> Mine<'s> {
    #[inline(always)]
    fn count(self) -> usize {
        self.slot.kept.load(Relaxed)
    }

    #[inline(always)]
    fn set_count(self, count: usize) {
        self.slot.kept.store(count, Relaxed);
    }

    /// Begins the work of a thread, whose end returns what it keeps here.
    pub(super) fn begin(self) {
        self.set_count(0);
        let counts = [&self.own().pulls, &self.own().returns];
        counts.into_iter().for_each(|count| count.set(0));
    }

    pub(super) fn end(self) {
        self.set_count(UNUSED);
    }

    /// Whether the thread's end returns what it keeps here.
    pub(super) fn is_noted(self) -> bool {
        self.count() != UNUSED
    }

    /// Keeps a place, or returns it if there is no room.
    #[inline(always)]
    pub(super) fn keep(self, held: Held) -> Result<(), Held> {
        let count = self.count();
        let Some(room) = self.own().kept.get(count) else { return Err(held) };
        room.set(Some(held));
        self.set_count(count + 1);
        Ok(())
    }

    /// Takes the place that was kept last.
    #[inline(always)]
    pub(super) fn take(self) -> Option<Held> {
        let count = self.count().wrapping_sub(1);
        let held = self.own().kept.get(count)?.take();
        self.set_count(count);
        held
    }

    /// Whether there is room for more than one place.
    pub(super) fn has_room(self) -> bool {
        self.count() + 1 < KEPT
    }

    /// Borrows the thread's way, if no call within a call has it.
    #[inline(always)]
    pub(super) fn way(self) -> Option<RefMut<'s, Way>> {
        self.own().way.try_borrow_mut().ok()
    }

    pub(super) fn only_pulls(self) -> bool {
        self.own().pulls.get() >= PULLS
    }

    /// Counts the pull of a place that wasn't kept.
    pub(super) fn count_pull(self) {
        let pulls = &self.own().pulls;
        pulls.set(pulls.get().saturating_add(1));
        self.own().returns.set(0);
    }

    /// Counts the return of a place that isn't kept. Tells whether the thread only returns places.
    pub(super) fn count_return(self) -> bool {
        let returns = self.own().returns.get().saturating_add(1);
        self.own().returns.set(returns);
        self.own().pulls.set(0);
        returns >= RETURNS
    }
}

impl Way {
    /// Creates the way of a thread of this shard, and whether it opens handles.
    pub(super) fn new(last: PartName, opens: bool) -> Way {
        Way { last, left: TOGETHER, opens, ..Way::default() }
    }

    /// Finds where the next pull begins, after one of a place of this page. The pages are as many as
    /// a power of two, or none.
    pub(super) fn go_on(&mut self, page: usize, pages: usize) {
        if page != self.page || self.left <= 1 {
            self.left = TOGETHER;
            self.page = (page + APART) & pages.saturating_sub(1);
        } else {
            self.left -= 1;
        }
    }

    /// Returns its own handle of a part, if it has one.
    #[inline(always)]
    pub(super) fn own_handle(&mut self, name: PartName) -> Option<&mut OwnHandle> {
        let handle = self.handles.get_mut(name.0)?;
        handle.is_some().then_some(handle)
    }

    /// Returns the handle of a part, which is opened if it isn't. It is empty if memory is refused.
    pub(super) fn handle(&mut self, name: PartName, library: &Library) -> &mut OwnHandle {
        if self.own_handle(name).is_none() {
            self.open(name.0, library);
        }
        self.handles.get_mut(name.0).unwrap_or(&mut self.none)
    }

    /// Opens the handle of this number. It stays away or empty if memory is refused.
    #[cold]
    fn open(&mut self, number: usize, library: &Library) {
        let length = self.handles.len().max(number + 1);
        let missing = length - self.handles.len();
        if self.opens && self.handles.try_reserve(missing).is_ok() {
            self.handles.resize_with(length, || None);
            self.handles[number] = library.open();
        }
    }
}
