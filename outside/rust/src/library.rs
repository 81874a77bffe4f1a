//! A pool of the proved library, and whether it has a free place.
pub(crate) mod calls;

use crate::atomics::{self, AtomicUsize, Ordering::SeqCst, Step};
use crate::lock;
use calls::{Handle, PAGE};
use std::{ptr, sync::Mutex};

/// The right to a place, which is held. What returns the place or keeps it spends this.
#[derive(Debug, PartialEq)]
pub struct Place(usize);

impl Place {
    /// Takes over the right to a place.
    ///
    /// # Safety
    ///
    /// The place was pulled, and nobody else has it.
    pub(crate) unsafe fn held(number: usize) -> Place {
        Place(number)
    }

    pub(crate) fn number(&self) -> usize {
        self.0
    }
}

/// A handle of a pool of the library. An empty one stands for that which threads share.
pub(crate) type OwnHandle = Option<Handle>;

/// Returns an address that only the call with this handle has while it goes on.
fn mark(own: &mut OwnHandle) -> usize {
    ptr::from_mut(own) as usize
}

/// What `Library::returned` is if no place can be found, and if one may be.
const NONE: usize = 0;
const SOME: usize = 1;

/// A pool of the library, and a handle of it that threads share where they have none of their own.
pub(crate) struct Library {
    shared: Mutex<Handle>,
    places: usize,
    /// Whether a place may be found: `NONE`, `SOME` or a mark.
    ///
    /// A look leaves its mark, then asks the library, and says `NONE` only if the mark still stands
    /// there. A return leaves its mark too if it doesn't find `SOME`, and says `SOME` only if the
    /// mark still stands there. So at `NONE` only places are free whose return isn't over.
    returned: AtomicUsize,
}

impl Library {
    /// Creates a pool of so many places, which are free. `None` if memory is refused.
    pub(crate) fn new(places: usize) -> Option<Library> {
        let shared = Mutex::new(calls::open(places)?);
        Some(Library { shared, places, returned: AtomicUsize::new(SOME) })
    }

    /// Creates a pool of so many places, which are held. `None` if memory is refused.
    pub(crate) fn held(places: usize) -> Option<Library> {
        let mut shared = calls::open(places)?;
        for place in 0..places {
            shared.pull(place / PAGE);
        }
        let (shared, returned) = (Mutex::new(shared), AtomicUsize::new(NONE));
        Some(Library { shared, places, returned })
    }

    pub(crate) fn places(&self) -> usize {
        self.places
    }

    /// Opens a handle. It is empty if memory is refused.
    #[cold]
    pub(crate) fn open(&self) -> OwnHandle {
        self.with_shared(Handle::share)
    }

    #[inline(never)]
    fn with_shared<A>(&self, call: impl FnOnce(&mut Handle) -> A) -> A {
        atomics::before(Step::Locks);
        call(&mut lock(&self.shared))
    }

    #[inline(always)]
    pub(crate) fn may_have_some(&self) -> bool {
        self.returned.load(SeqCst) != NONE
    }

    /// Pulls a place by a handle of this pool. It begins at this page. `None` if at one moment all
    /// were out, but those whose return wasn't over.
    #[inline(always)]
    pub(crate) fn pull(&self, own: &mut OwnHandle, page: usize) -> Option<Place> {
        self.pull_once(own, page).or_else(|| self.pull_again(own, page))
    }

    /// Pulls a place as `pull` does. If there is none, it doesn't say so.
    #[inline(always)]
    pub(crate) fn pull_once(&self, own: &mut OwnHandle, page: usize) -> Option<Place> {
        let look = || self.look(own, page);
        self.may_have_some().then(look).flatten()
    }

    /// Pulls a place as `pull` does. If there is none, it says so.
    #[inline(never)]
    pub(crate) fn pull_again(&self, own: &mut OwnHandle, page: usize) -> Option<Place> {
        if !self.may_have_some() {
            return None;
        }
        let ours = mark(own);
        self.returned.store(ours, SeqCst);
        let place = self.look(own, page);
        if place.is_none() {
            // Who returned a place since the mark was left left another one, if that is over.
            let _ = self.returned.compare_exchange(ours, NONE, SeqCst, SeqCst);
        }
        place
    }

    #[inline(always)]
    fn look(&self, own: &mut OwnHandle, page: usize) -> Option<Place> {
        let place = atomics::look(|| match own {
            Some(own) => own.pull(page),
            None => self.with_shared(|shared| shared.pull(page)),
        });
        place.map(Place)
    }

    /// Returns a place. If it wasn't known that one may be found, it makes this call before it says
    /// so.
    ///
    /// # Safety
    ///
    /// The handle and the place are of this pool.
    #[inline(always)]
    pub(crate) unsafe fn give_back(&self, own: &mut OwnHandle, place: Place, call: impl FnOnce()) {
        atomics::before(Step::Returns);
        #[allow(unused_unsafe)] // the call in Rust is safe
        // SAFETY: the place is out, of this pool, and so is the shared handle.
        let give_back = |handle: &mut Handle| unsafe { handle.give_back(place.0) };
        match own {
            Some(own) => give_back(own),
            None => self.with_shared(give_back),
        }
        if self.returned.load(SeqCst) != SOME {
            self.say_returned(mark(own), call);
        }
    }

    #[inline(never)]
    fn say_returned(&self, mark: usize, call: impl FnOnce()) {
        self.returned.store(mark, SeqCst);
        call();
        // If another mark stands there, whose look or return that is says it.
        let _ = self.returned.compare_exchange(mark, SOME, SeqCst, SeqCst);
    }
}
