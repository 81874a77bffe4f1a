//! The pools that are measured.
use crate::{reset_item, use_item, write_item};
use crossbeam_queue::ArrayQueue;
use kundratu_pool::{LinearObjectPool as Growing, LinearReusable as GrowingReusable};
use kundratu_pool::{Pool, Reusable};
use lockfree_object_pool::{LinearObjectPool, LinearReusable};
use sharded_slab::{Clear, Pool as Slab};
use std::ffi::c_void;
use std::hint::black_box;
use std::ptr::NonNull;
use std::sync::atomic::{AtomicU64, AtomicUsize, Ordering};
use std::sync::Mutex;

/// A pool that threads share.
pub trait Contender: Sync {
    /// What a thread has of its own.
    type User;
    /// An item that is held.
    type Held<'p>
    where
        Self: 'p;
    /// An item that goes to another thread.
    type Sent<'p>: Send
    where
        Self: 'p;
    /// Whether a pull passes by what is held.
    const SCANS: bool = false;

    fn user(&self) -> Self::User;
    /// Pulls an item, adds one to it, sets it to 0 and returns it.
    fn turn(&self, user: &mut Self::User);
    fn hold(&self) -> Self::Held<'_>;
    /// Pulls an item and adds one to it, for another thread.
    fn lend(&self, user: &mut Self::User) -> Self::Sent<'_>;
    /// Sets an item of another thread to 0 and returns it.
    fn take_back(&self, user: &mut Self::User, sent: Self::Sent<'_>);
}

/// An open handle of the proved pool. At its end it is closed.
#[repr(transparent)]
pub struct Handle(NonNull<c_void>);

// SAFETY: it is proved of the library: its handle is `Send`.
unsafe impl Send for Handle {}

impl Drop for Handle {
    fn drop(&mut self) {
        kdr_pool_drop(&mut Some(Handle(self.0))); // it leaves `None`
    }
}

/// A place by itself: one more than its number, or 0 if it is empty, and its pool's tag.
#[repr(C)]
pub struct Place {
    after: usize,
    tag: usize,
}

impl Place {
    fn number(&self) -> usize {
        self.after - 1
    }
}

// SAFETY: as `kundratu_pool.h` declares them. The last call isn't safe: the place has to be held,
// and of the handle's pool.
unsafe extern "C" {
    #[link_name = "kdr_0_1_0_handle_new"]
    safe fn kdr_handle_new(items: usize, tag: usize, out: &mut Option<Handle>) -> u32;
    #[link_name = "kdr_0_1_0_handle_share"]
    safe fn kdr_pool_share(handle: &mut Option<Handle>, out: &mut Option<Handle>) -> u32;
    #[link_name = "kdr_0_1_0_pool_drop"]
    safe fn kdr_pool_drop(handle: &mut Option<Handle>) -> u32;
    #[link_name = "kdr_0_1_0_place_pull"]
    safe fn kdr_place_pull(handle: &mut Option<Handle>, page: usize, out: &mut Place) -> u32;
    #[link_name = "kdr_0_1_0_place_return"]
    fn kdr_place_return(handle: &mut Option<Handle>, place: &mut Place) -> u32;
}

/// How many places a page has.
const PAGE: usize = 32;

/// How many pages apart threads begin, and go on: the words of pages so far apart share no cache
/// line.
const APART: usize = 17;

/// How many items a thread lends from a page, before it goes on to another one. Others return them
/// there meanwhile.
const TOGETHER: usize = 4;

/// The C calls, which the crate links, with a handle a thread, and places by themselves.
pub struct Places {
    first: Mutex<Option<Handle>>,
    users: AtomicUsize,
    cells: Box<[AtomicU64]>,
}

/// A thread's handle, the page where its next pull begins, and how many items it lent from there.
pub struct OwnHandle {
    handle: Option<Handle>,
    page: usize,
    lent: usize,
}

impl Places {
    pub fn new(items: usize, cells: Box<[AtomicU64]>) -> Places {
        let mut first = None;
        assert_eq!(kdr_handle_new(items, 0, &mut first), 0);
        Places {
            first: Mutex::new(first),
            users: AtomicUsize::new(0),
            cells,
        }
    }

    /// Names a page by its number, counted round and round.
    fn page(&self, number: usize) -> usize {
        number % (self.cells.len() / PAGE)
    }

    fn pull(&self, user: &mut OwnHandle) -> Place {
        let mut place = Place { after: 0, tag: 0 };
        let answer = kdr_place_pull(&mut user.handle, user.page, &mut place);
        assert_eq!(answer, 0);
        place
    }

    fn give_back(&self, user: &mut OwnHandle, mut place: Place) {
        // SAFETY: all handles and places here are of this pool, and a place comes here once.
        unsafe { kdr_place_return(&mut user.handle, &mut place) };
    }
}

impl Contender for Places {
    type User = OwnHandle;
    type Held<'p> = Place;
    type Sent<'p> = Place;

    fn user(&self) -> OwnHandle {
        let mut handle = None;
        let mut first = self.first.lock().expect("no panic");
        assert_eq!(kdr_pool_share(&mut first, &mut handle), 0);
        let page = self.page(APART * self.users.fetch_add(1, Ordering::Relaxed));
        let lent = 0;
        OwnHandle { handle, page, lent }
    }

    fn turn(&self, user: &mut OwnHandle) {
        let place = self.pull(user);
        use_item(&self.cells, place.number());
        self.give_back(user, place);
    }

    fn hold(&self) -> Place {
        self.pull(&mut self.user())
    }

    fn lend(&self, user: &mut OwnHandle) -> Place {
        let place = self.pull(user);
        user.lent += 1;
        if user.lent == TOGETHER {
            (user.lent, user.page) = (0, self.page(user.page + APART));
        }
        write_item(&self.cells, place.number());
        place
    }

    fn take_back(&self, user: &mut OwnHandle, place: Place) {
        reset_item(&self.cells, place.number());
        self.give_back(user, place);
    }
}

/// A pool whose guards go to another thread as they are.
macro_rules! guarding {
    ($contender:ident, $guard:ident, $scans:expr, $pull:path) => {
        impl Contender for $contender {
            type User = ();
            type Held<'p> = $guard<'p, u64>;
            type Sent<'p> = $guard<'p, u64>;
            const SCANS: bool = $scans;

            fn user(&self) {}

            fn turn(&self, _: &mut ()) {
                *$pull(&self.0) += 1;
            }

            fn hold(&self) -> $guard<'_, u64> {
                $pull(&self.0)
            }

            fn lend(&self, _: &mut ()) -> $guard<'_, u64> {
                let mut guard = $pull(&self.0);
                *guard += 1;
                guard
            }

            fn take_back(&self, _: &mut (), guard: $guard<'_, u64>) {
                drop(guard);
            }
        }
    };
}

/// The Rust crate over the C calls.
pub struct Wrapped(Pool<u64>);

impl Wrapped {
    pub fn new(items: usize) -> Wrapped {
        Wrapped(Pool::new(items, || 0, |number| *number = 0).expect("there is memory"))
    }
}

#[inline(always)]
fn pull_one(pool: &Pool<u64>) -> Reusable<'_, u64> {
    pool.pull().expect("one is free")
}

guarding!(Wrapped, Reusable, false, pull_one);

/// Its pool that grows.
pub struct Grows(Growing<u64>);

impl Grows {
    pub fn new() -> Grows {
        Grows(Growing::new(|| 0, |number| *number = 0))
    }
}

guarding!(Grows, GrowingReusable, false, Growing::pull);

/// The crate that this repository ports, whose pool grows.
pub struct Original(LinearObjectPool<u64>);

impl Original {
    pub fn new() -> Original {
        Original(LinearObjectPool::new(|| 0, |number| *number = 0))
    }
}

guarding!(Original, LinearReusable, true, LinearObjectPool::pull);

/// Where free indices lie.
pub trait FreeIndices: Sync {
    fn take(&self) -> usize;
    fn put(&self, index: usize);
}

/// Crossbeam's queue.
pub struct Queue(ArrayQueue<usize>);

impl Queue {
    pub fn new(items: usize) -> Queue {
        let queue = ArrayQueue::new(items);
        (0..items).for_each(|index| queue.push(index).expect("there is room"));
        Queue(queue)
    }
}

impl FreeIndices for Queue {
    fn take(&self) -> usize {
        self.0.pop().expect("one is free")
    }

    fn put(&self, index: usize) {
        self.0.push(index).expect("there is room");
    }
}

/// A mutex round a vector.
pub struct Stack(Mutex<Vec<usize>>);

impl Stack {
    pub fn new(items: usize) -> Stack {
        Stack(Mutex::new((0..items).rev().collect()))
    }
}

impl FreeIndices for Stack {
    fn take(&self) -> usize {
        self.0.lock().expect("no panic").pop().expect("one is free")
    }

    fn put(&self, index: usize) {
        self.0.lock().expect("no panic").push(index);
    }
}

/// A pool of indices into one array.
pub struct Indices<F> {
    free: F,
    cells: Box<[AtomicU64]>,
}

impl<F> Indices<F> {
    pub fn new(free: F, cells: Box<[AtomicU64]>) -> Indices<F> {
        Indices { free, cells }
    }
}

/// An index that is held.
pub struct HeldIndex<'p, F: FreeIndices>(&'p F, usize);

impl<F: FreeIndices> Drop for HeldIndex<'_, F> {
    fn drop(&mut self) {
        self.0.put(self.1);
    }
}

impl<F: FreeIndices> Contender for Indices<F> {
    type User = ();
    type Held<'p>
        = HeldIndex<'p, F>
    where
        F: 'p;
    type Sent<'p>
        = HeldIndex<'p, F>
    where
        F: 'p;

    fn user(&self) {}

    fn turn(&self, _: &mut ()) {
        let index = self.free.take();
        use_item(&self.cells, index);
        self.free.put(index);
    }

    fn hold(&self) -> HeldIndex<'_, F> {
        HeldIndex(&self.free, self.free.take())
    }

    fn lend(&self, _: &mut ()) -> HeldIndex<'_, F> {
        let held = self.hold();
        write_item(&self.cells, held.1);
        held
    }

    fn take_back(&self, _: &mut (), held: HeldIndex<'_, F>) {
        reset_item(&self.cells, held.1);
    }
}

/// What the slab clears.
#[derive(Default)]
pub struct Number(u64);

impl Clear for Number {
    fn clear(&mut self) {
        self.0 = 0;
    }
}

/// Sharded-slab's pool, whose items are found by keys and cleared by them.
pub struct Sharded(Slab<Number>);

impl Sharded {
    pub fn new() -> Sharded {
        Sharded(Slab::new())
    }
}

/// A key of it whose item is held.
pub struct HeldKey<'p>(&'p Slab<Number>, usize);

impl Drop for HeldKey<'_> {
    fn drop(&mut self) {
        self.0.clear(self.1);
    }
}

impl Contender for Sharded {
    type User = ();
    type Held<'p> = HeldKey<'p>;
    type Sent<'p> = HeldKey<'p>;

    fn user(&self) {}

    fn turn(&self, user: &mut ()) {
        drop(self.lend(user));
    }

    fn hold(&self) -> HeldKey<'_> {
        let item = self.0.create().expect("there is room");
        HeldKey(&self.0, item.key())
    }

    fn lend(&self, _: &mut ()) -> HeldKey<'_> {
        let mut item = self.0.create().expect("there is room");
        item.0 += 1;
        HeldKey(&self.0, item.key())
    }

    fn take_back(&self, _: &mut (), held: HeldKey<'_>) {
        drop(held);
    }
}

/// No pool: each thread goes round items of its own, and nobody asks whether they came back. So
/// this tells what the rest takes. A receiver may do some more work with each item.
pub struct Turns {
    users: AtomicUsize,
    cells: Box<[AtomicU64]>,
    steps: u32,
}

impl Turns {
    /// Creates what has these items, and so many steps of work at each receipt.
    pub fn new(cells: Box<[AtomicU64]>, steps: u32) -> Turns {
        Turns {
            users: AtomicUsize::new(0),
            cells,
            steps,
        }
    }
}

/// How many items a thread goes round.
const ROUND: usize = 2_048;

/// A thread's first item, and how many it used.
pub struct Own {
    first: usize,
    used: usize,
}

impl Contender for Turns {
    type User = Own;
    type Held<'p> = ();
    type Sent<'p> = usize;

    fn user(&self) -> Own {
        let first = ROUND * self.users.fetch_add(1, Ordering::Relaxed) % self.cells.len();
        Own { first, used: 0 }
    }

    fn turn(&self, own: &mut Own) {
        use_item(&self.cells, own.first);
    }

    fn hold(&self) {}

    fn lend(&self, own: &mut Own) -> usize {
        own.used += 1;
        let index = own.first + own.used % ROUND;
        write_item(&self.cells, index);
        index
    }

    fn take_back(&self, _: &mut Own, index: usize) {
        (0..self.steps).map(black_box).for_each(drop);
        reset_item(&self.cells, index);
    }
}
