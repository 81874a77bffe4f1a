//! Threads that pull items, hand them to each other and return them. ThreadSanitizer would report
//! the standard library's threads and locks, which aren't built with it. So these are C's, and this
//! file has no harness.
use kundratu_pool::{LinearObjectPool, LinearReusable, Pool, Reusable};
use std::array;
use std::cell::UnsafeCell;
use std::ffi::c_void;
use std::ptr::{null, null_mut};

const THREADS: usize = 8;
const ROUNDS: u64 = 20_000;

unsafe extern "C" {
    fn pthread_create(
        thread: *mut usize,
        attributes: *const c_void,
        run: extern "C" fn(*mut c_void) -> *mut c_void,
        with: *mut c_void,
    ) -> i32;
    fn pthread_join(thread: usize, result: *mut *mut c_void) -> i32;
    fn pthread_mutex_lock(lock: *mut Lock) -> i32;
    fn pthread_mutex_unlock(lock: *mut Lock) -> i32;
}

/// A lock of glibc that is free.
#[repr(C, align(8))]
#[derive(Default)]
struct Lock([u64; 5]);

/// A value behind a lock.
struct Slot<T>(UnsafeCell<Lock>, UnsafeCell<T>);

impl<T> Slot<T> {
    fn new(value: T) -> Slot<T> {
        Slot(UnsafeCell::default(), UnsafeCell::new(value))
    }

    fn with<A>(&self, call: impl FnOnce(&mut T) -> A) -> A {
        // SAFETY: the lock's holder alone is at the value.
        unsafe {
            assert_eq!(pthread_mutex_lock(self.0.get()), 0);
            let answer = call(&mut *self.1.get());
            assert_eq!(pthread_mutex_unlock(self.0.get()), 0);
            answer
        }
    }
}

type Slots<G> = [Slot<Option<G>>; 4];

/// Two pools, and where threads leave their items for others.
struct Shared<'p> {
    fixed: &'p Pool<u64>,
    grows: &'p LinearObjectPool<u64>,
    of_fixed: Slots<Reusable<'p, u64>>,
    of_grows: Slots<LinearReusable<'p, u64>>,
    first: Slot<()>,
}

/// Writes an item, and leaves it in place of another thread's, which it returns.
fn hand_on<G: std::ops::DerefMut<Target = u64>>(mut item: G, round: u64, slots: &Slots<G>) {
    assert_eq!(*item, 0, "two have it, or it isn't reset");
    *item = round + 1;
    let slot = &slots[round as usize % slots.len()];
    if let Some(mut other) = slot.with(|slot| slot.replace(item)) {
        assert_ne!(*other, 0, "it was returned already");
        *other += 1;
    }
}

extern "C" fn run(shared: *mut c_void) -> *mut c_void {
    // SAFETY: it is there until all threads have ended.
    let shared = unsafe { &*shared.cast::<Shared>() };
    // A thread's first call takes a lock of the standard library. Here one thread at a time does.
    shared.first.with(|()| drop(shared.fixed.pull()));
    for round in 0..ROUNDS {
        let item = shared.fixed.pull().expect("at most 20 are out");
        hand_on(item, round, &shared.of_fixed);
        hand_on(shared.grows.pull(), round, &shared.of_grows);
    }
    null_mut()
}

fn main() {
    let reset = |number: &mut u64| *number = 0;
    let fixed = Pool::new(20, || 0, reset).expect("there is memory");
    let grows = LinearObjectPool::new(|| 0, reset);
    // Then no thread makes a chunk, which takes a lock of the standard library too.
    drop((0..100).map(|_| grows.pull()).collect::<Vec<_>>());
    let mut shared = Shared {
        fixed: &fixed,
        grows: &grows,
        of_fixed: array::from_fn(|_| Slot::new(None)),
        of_grows: array::from_fn(|_| Slot::new(None)),
        first: Slot::new(()),
    };
    let with = (&raw mut shared).cast();
    let threads = [(); THREADS].map(|()| {
        let mut thread = 0;
        // SAFETY: the threads end before what they borrow.
        assert_eq!(unsafe { pthread_create(&mut thread, null(), run, with) }, 0);
        thread
    });
    for thread in threads {
        // SAFETY: it was created, and is joined once.
        assert_eq!(unsafe { pthread_join(thread, null_mut()) }, 0);
    }
    println!("{THREADS} threads handed on {} items each", 2 * ROUNDS);
}
