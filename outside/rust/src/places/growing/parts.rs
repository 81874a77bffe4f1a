//! The parts of a pool that grows, and their names.
use super::PulledPlace;
use crate::atomics::{AtomicUsize, Ordering::Relaxed};
use crate::library::{calls::PAGE, Library, Place};
use crate::once::OnceBox;

/// How many shards a pool has. So many threads pull and return without meeting.
pub(super) const SHARDS: usize = 8;
/// How many parts a shard may have, and how many of them lie in one table.
const PARTS: usize = 128;
const TABLE: usize = 32;
/// How many parts have twice as many places each as the one before. From then on four have as many.
const DOUBLING: usize = 6;

/// A part of a pool, by a number of which each value names one.
#[derive(Clone, Copy, Default)]
pub(crate) struct PartName(pub(super) usize);

impl PartName {
    const ALL: usize = 1_024;

    pub(super) fn first(shard: usize) -> PartName {
        PartName(shard % SHARDS)
    }

    /// Names the part of a place, and the place in it.
    pub(crate) fn of(at: usize) -> (PartName, usize) {
        (PartName(at % Self::ALL), at / Self::ALL)
    }

    pub(super) fn shard(self) -> usize {
        self.0 % SHARDS
    }

    /// Returns which of its shard's parts it is.
    fn part(self) -> usize {
        self.0 / SHARDS
    }

    /// Returns how often the places of its shard's first part are doubled here.
    pub(crate) fn doublings(self) -> usize {
        self.part().min((self.part() + 3 * DOUBLING) / 4)
    }

    /// Names the next part of the shard. `None` if there are too many.
    pub(super) fn next(self) -> Option<PartName> {
        let next = PartName(self.0 + SHARDS);
        (next.part() < PARTS).then_some(next)
    }

    /// Returns what stands for this place in a part of this name.
    pub(super) fn at(self, place: usize) -> usize {
        place * Self::ALL + self.0
    }

    /// Takes over the right to a place that was returned to the part of this name.
    pub(super) fn pulled(self, place: Place) -> PulledPlace {
        PulledPlace { at: self.at(place.number()), is_made: true }
    }
}

const _: () = assert!(SHARDS * PARTS == PartName::ALL);

type Table<P> = OnceBox<[OnceBox<P>; TABLE]>;

/// What each part has, in the tables of shards. The parts of a shard are made in their order.
pub(crate) struct Parts<P>([[Table<P>; PARTS / TABLE]; SHARDS]);

impl<P> Parts<P> {
    pub(crate) const fn new() -> Parts<P> {
        Parts([const { [const { OnceBox::new() }; PARTS / TABLE] }; SHARDS])
    }

    #[inline(always)]
    pub(crate) fn get(&self, name: PartName) -> Option<&P> {
        self.table(name).get()?[name.part() % TABLE].get()
    }

    #[inline(always)]
    fn table(&self, name: PartName) -> &Table<P> {
        &self.0[name.shard()][name.part() / TABLE % (PARTS / TABLE)]
    }

    /// Makes a part, if it isn't there. `None` if memory is refused.
    pub(crate) fn make(&self, name: PartName, part: impl FnOnce() -> Option<P>) -> Option<()> {
        let table = self.table(name);
        let table = match table.get() {
            Some(table) => table,
            None => table.set([const { OnceBox::new() }; TABLE])?,
        };
        let made = &table[name.part() % TABLE];
        if made.get().is_none() {
            made.set(part()?)?;
        }
        Some(())
    }

    /// Returns all parts, those of this shard first.
    pub(super) fn all(&self, home: usize) -> impl Iterator<Item = (PartName, &P)> {
        (0..SHARDS).map(move |step| (home + step) % SHARDS).flat_map(|shard| {
            let tables = self.0[shard].iter().map_while(OnceBox::get);
            let parts = tables.flatten().map_while(OnceBox::get).enumerate();
            parts.map(move |(part, made)| (PartName(part * SHARDS + shard), made))
        })
    }
}

/// Some places. At first all are held, and `fresh` ones are given one after the other.
pub(super) struct Part {
    pub(super) library: Library,
    fresh: AtomicUsize,
}

impl Part {
    /// Creates so many places, which are held. `None` if memory is refused.
    pub(super) fn new(places: usize) -> Option<Part> {
        Some(Part { library: Library::held(places)?, fresh: AtomicUsize::new(0) })
    }

    pub(super) fn pages(&self) -> usize {
        self.library.places() / PAGE
    }

    /// Gives a place that nobody had. `None` if there is none.
    pub(super) fn fresh(&self) -> Option<usize> {
        let next = |fresh| (fresh < self.library.places()).then_some(fresh + 1);
        self.fresh.fetch_update(Relaxed, Relaxed, next).ok()
    }

    pub(super) fn given(&self) -> usize {
        self.fresh.load(Relaxed)
    }
}
