//! Which places of a fixed number are held.
use super::kept::Kept;
use crate::atomics::{fence, Ordering::SeqCst};
use crate::library::{calls::PAGE, Library, OwnHandle, Place};
use crate::threads::{self, slots::Mine, slots::ThreadSlots, Number};
use crate::{places::slots::OwnLines, pools::pool::NewError};
use std::cell::{Cell, RefCell};

/// How many places a thread pulls at one page, if others return them.
const TOGETHER: isize = 4;

pub(crate) struct Fixed {
    library: OwnLines<Library>,
    thread_slots: ThreadSlots<Kept, Own>,
}

/// What a thread has that others don't reach.
struct Own {
    /// What the thread slot's `Kept` is while it has no place.
    empty: Cell<u64>,
    way: RefCell<Way>,
}

/// How a thread comes to places that it doesn't keep.
struct Way {
    handle: OwnHandle,
    /// At which page the next pull begins.
    page: usize,
    /// Where the thread began, and how often it moved.
    begin: usize,
    moves: usize,
    /// How many more places are pulled than returned until the next move.
    left: isize,
}

impl Fixed {
    /// Creates so many free places. Fails if there are none, or if memory is refused.
    pub(crate) fn new(places: usize) -> Result<Fixed, NewError> {
        if places == 0 {
            return Err(NewError::NoItems);
        }
        let library = OwnLines(Library::new(places).ok_or(NewError::Memory)?);
        Ok(Fixed { library, thread_slots: ThreadSlots::new() })
    }

    pub(crate) fn places(&self) -> usize {
        self.library.0.places()
    }

    /// Returns how many places were pulled and not returned, as each thread counts it.
    pub(crate) fn pulled(&self) -> usize {
        self.thread_slots.pulled()
    }

    /// Pulls a place. `None` if all were out at one moment.
    #[inline(always)]
    pub(crate) fn pull(&self) -> Option<Place> {
        let kept = threads::with_known(|number| {
            let mine = self.thread_slots.get(number)?;
            let place = mine.slot.kept.take_own(mine.own().empty.get())?;
            self.thread_slots.count(Some(mine), 1);
            Some(place)
        });
        kept.or_else(|| self.pull_further())
    }

    /// Pulls a place that the thread doesn't keep.
    #[inline(never)]
    fn pull_further(&self) -> Option<Place> {
        threads::with(|number| match number.and_then(|number| self.mine(number)) {
            Some(mine) => {
                let way = &mut *mine.own().way.borrow_mut();
                let place = way.pull(&self.library.0);
                let place = place.or_else(|| self.look(&mut way.handle));
                place.inspect(|_| self.thread_slots.count(Some(mine), 1))
            }
            None => self.look(&mut None).inspect(|_| self.thread_slots.count(None, 1)),
        })
    }

    /// Returns a place.
    ///
    /// # Safety
    ///
    /// The place is of this pool.
    #[inline(always)]
    pub(crate) unsafe fn give_back(&self, place: Place) {
        let kept = threads::with_known(|number| {
            let Some(mine) = self.thread_slots.get(number) else { return Err(place) };
            mine.slot.kept.keep(place, &mine.own().empty)?;
            self.thread_slots.count(Some(mine), -1);
            Ok(())
        });
        if let Err(place) = kept {
            // SAFETY: the caller says that it is of this pool.
            unsafe { self.give_back_further(place) };
        }
    }

    /// Returns a place that the thread doesn't keep.
    ///
    /// # Safety
    ///
    /// The place is of this pool.
    #[inline(never)]
    unsafe fn give_back_further(&self, place: Place) {
        // SAFETY: the handles below are of this pool, and the caller says it of the place.
        let give_back = |handle: &mut _| unsafe { self.library.0.give_back(handle, place, || ()) };
        threads::with(|number| {
            let mine = number.and_then(|number| self.mine(number));
            self.thread_slots.count(mine, -1);
            let Some(mine) = mine else { return give_back(&mut None) };
            let way = &mut *mine.own().way.borrow_mut();
            way.left += 1;
            give_back(&mut way.handle);
        });
    }

    /// Returns what a thread has, which is made if it isn't there. `None` if memory is refused.
    fn mine<'s>(&'s self, number: &'s Number) -> Option<Mine<'s, Kept, Own>> {
        self.thread_slots.get(number).or_else(|| {
            let way = Way::new(number.get(), self.places().div_ceil(PAGE), self.library.0.open());
            let own = Own { empty: Cell::new(Kept::NONE), way: RefCell::new(way) };
            self.thread_slots.make(number, Kept::new(), own)?;
            self.thread_slots.get(number)
        })
    }

    /// Pulls a place that a thread keeps or that the library has. `None` if all were out at one moment.
    #[cold]
    fn look(&self, handle: &mut OwnHandle) -> Option<Place> {
        fence(SeqCst);
        let mut before = self.take_kept();
        loop {
            let Err(count) = before else { return before.ok() };
            if let Some(place) = self.library.0.pull_again(handle, 0) {
                return Some(place);
            }
            before = self.take_kept();
            if before == Err(count) {
                return None;
            }
        }
    }

    /// Takes a place that a thread keeps. If none does, this returns how often threads kept one.
    fn take_kept(&self) -> Result<Place, u64> {
        let mut count = 0_u64;
        for thread_slot in self.thread_slots.all() {
            match thread_slot.kept.take() {
                Ok(place) => return Ok(place),
                Err(often) => count = count.wrapping_add(often),
            }
        }
        Err(count)
    }
}

impl Way {
    /// Creates the way of a thread to so many pages.
    fn new(number: usize, pages: usize, handle: OwnHandle) -> Way {
        // Threads begin so far apart that the words of their pages lie on cache lines of their own.
        let far = if pages % 17 == 0 { 1 } else { 17 };
        let begin = (number + 1) * far;
        Way { handle, page: begin % pages, begin, moves: 0, left: TOGETHER }
    }

    #[inline(always)]
    fn pull(&mut self, library: &Library) -> Option<Place> {
        let place = library.pull_once(&mut self.handle, self.page)?;
        let page = place.number() / PAGE;
        if page != self.page || self.left <= 1 {
            self.go_on(page, library.places().div_ceil(PAGE));
        }
        self.left -= 1;
        Some(place)
    }

    /// Finds where the next pull begins, after one of a place of this page.
    #[inline(never)]
    fn go_on(&mut self, page: usize, pages: usize) {
        if page != self.page {
            // Others come there too, so the next pull begins apart from them, behind that page or
            // before it. If it finds nothing there, the thread keeps to the page of its place.
            let apart = [self.begin, self.begin.wrapping_neg(), 0][self.moves % 3];
            self.page = page.wrapping_add(apart) % pages;
            self.moves += 1;
        } else {
            // Others return what this thread pulls, so it goes round some pages, apart from them.
            (self.left, self.moves) = (TOGETHER + 1, self.moves + 1);
            self.page = (self.begin + self.moves % 128 * 17) % pages;
        }
    }
}
