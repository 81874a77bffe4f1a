//! The calls of the library in safe Rust, for targets that have no text of the proved code, or by
//! the feature `portable`. They are tested, also against the proved ones, and not proved.
//!
//! A page has a word. Its low half has a bit for each place, which is set while the place is free.
//! Its high half counts returns. A pull clears the bits that it saw set, lowest first, until one was
//! still set. It fails if it saw no bit in any word, twice with no return between: then all places
//! were in use at one moment.
#![forbid(unsafe_code)]

use super::PAGE;
use std::sync::atomic::{AtomicU64, AtomicUsize, Ordering::SeqCst};
use std::sync::Arc;

/// What a return adds to the count of its word.
const RETURN: u64 = 1 << PAGE;

/// An open handle of a pool.
pub struct Handle(Arc<Places>);

impl Handle {
    /// Creates a pool of so many free places, of which there is one at least. `None` if memory is
    /// refused.
    pub fn new(count: usize) -> Option<Handle> {
        let pages = count.checked_add(PAGE - 1)? / PAGE;
        let mut words = Vec::new();
        words.try_reserve_exact(pages).ok()?;
        let places_of = |page: usize| (count - page * PAGE).min(PAGE);
        words.extend((0..pages).map(|page| AtomicU64::new((1 << places_of(page)) - 1)));
        Some(Handle(Arc::new(Places { words, hint: AtomicUsize::new(0) })))
    }

    /// Opens a further handle of its pool.
    pub fn share(&mut self) -> Option<Handle> {
        Some(Handle(Arc::clone(&self.0)))
    }

    /// Pulls a place, at this page first. `None` if all were out at one moment.
    pub fn pull(&mut self, page: usize) -> Option<usize> {
        let places = &self.0;
        let start = page % places.words.len();
        places.take_lowest(start, places.look(start).0).or_else(|| places.pull_further(start))
    }

    /// Returns a place, which is out of this pool. The pages are hinted at that had no free place.
    pub fn give_back(&mut self, place: usize) {
        let (page, bit) = (place / PAGE, 1_u64 << (place % PAGE));
        let before = self.0.words[page].fetch_add(RETURN | bit, SeqCst);
        assert_eq!(before & bit, 0, "place {place} is free, and was returned");
        if before as u32 == 0 {
            self.0.set_hint(page);
        }
    }
}

struct Places {
    words: Vec<AtomicU64>,
    /// A page that may have free places.
    hint: AtomicUsize,
}

impl Places {
    /// Reads which places of a page are free, and how many returns it counts.
    fn look(&self, page: usize) -> (u32, u32) {
        let word = self.words[page].load(SeqCst);
        (word as u32, (word >> PAGE) as u32)
    }

    /// Takes the lowest place that was seen free and still is.
    fn take_lowest(&self, page: usize, seen: u32) -> Option<usize> {
        let mut untried = seen;
        while untried != 0 {
            let bit = untried & untried.wrapping_neg();
            if self.words[page].fetch_and(!u64::from(bit), SeqCst) & u64::from(bit) != 0 {
                return Some(page * PAGE + bit.trailing_zeros() as usize);
            }
            untried ^= bit;
        }
        None
    }

    /// Takes a place, after none was seen at this page. `None` if all were in use at one moment.
    #[inline(never)]
    fn pull_further(&self, start: usize) -> Option<usize> {
        let mut before = None;
        loop {
            let returns = match self.pull_beside(start) {
                Ok(place) => return Some(place),
                Err(returns) => returns,
            };
            if before == Some((0, returns)) {
                return None;
            }
            let (seen, _) = self.look(start);
            if let Some(place) = self.take_lowest(start, seen) {
                return Some(place);
            }
            before = Some((seen, returns));
        }
    }

    /// Takes a place of the other pages, at the hint first. If there is none, this returns how many
    /// returns these pages count together.
    fn pull_beside(&self, start: usize) -> Result<usize, u32> {
        let hint = self.hint.load(SeqCst);
        let mut returns = 0_u32;
        for page in (hint..self.words.len()).chain(0..hint) {
            if page == start {
                continue;
            }
            let (seen, count) = self.look(page);
            if let Some(place) = self.take_lowest(page, seen) {
                self.set_hint(page);
                return Ok(place);
            }
            returns = returns.wrapping_add(count);
        }
        Err(returns)
    }

    fn set_hint(&self, page: usize) {
        if self.hint.load(SeqCst) != page {
            self.hint.store(page, SeqCst);
        }
    }
}
