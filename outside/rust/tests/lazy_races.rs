//! Eight threads that wait for two items of a lazy pool, in rounds, in any order and in a fair one:
//! each round is over only if none is left waiting beside a free place. As in `races.rs`, threads and barriers are C's, so that
//! ThreadSanitizer knows them.
use kundratu_pool::LazyPool;
use std::cell::UnsafeCell;
use std::ffi::c_void;
use std::ptr::{null, null_mut};
use std::time::Duration;

const THREADS: usize = 8;
const ROUNDS: u64 = 100_000;
/// A fair pool hands each item to a thread that sleeps, so its rounds are fewer.
const FAIR_ROUNDS: u64 = 10_000;
const ITEMS: usize = 2;
/// A wait that is longer isn't one for an item, but for a wake that was lost.
const LOST: Duration = Duration::from_secs(30);

unsafe extern "C" {
    fn pthread_create(
        thread: *mut usize,
        attributes: *const c_void,
        run: extern "C" fn(*mut c_void) -> *mut c_void,
        with: *mut c_void,
    ) -> i32;
    fn pthread_join(thread: usize, result: *mut *mut c_void) -> i32;
    fn pthread_barrier_init(barrier: *mut Barrier, attributes: *const c_void, count: u32) -> i32;
    fn pthread_barrier_wait(barrier: *mut Barrier) -> i32;
}

/// A barrier of glibc.
#[repr(C, align(8))]
#[derive(Default)]
struct Barrier([u64; 4]);

struct Shared {
    pool: LazyPool<u64, ()>,
    rounds: u64,
    meet: UnsafeCell<Barrier>,
}

extern "C" fn run(shared: *mut c_void) -> *mut c_void {
    // SAFETY: it is there until all threads have ended.
    let shared = unsafe { &*shared.cast::<Shared>() };
    for round in 0..shared.rounds {
        // SAFETY: it was initialized for so many threads.
        unsafe { pthread_barrier_wait(shared.meet.get()) };
        let mut item = shared.pool.pull_timeout(LOST).expect("a wake was lost");
        *item += 1;
        match round % 100 {
            0 => item.discard(),
            1 => assert_ne!(item.detach(), 0),
            _ => drop(item),
        }
    }
    null_mut()
}

fn wait(pool: LazyPool<u64, ()>, rounds: u64) {
    let meet = UnsafeCell::default();
    let mut shared = Shared { pool, rounds, meet };
    // SAFETY: nobody has the barrier yet.
    let made = unsafe { pthread_barrier_init(shared.meet.get(), null(), THREADS as u32) };
    assert_eq!(made, 0);
    let with = (&raw mut shared).cast();
    let threads = [(); THREADS].map(|()| {
        let mut thread = 0;
        // SAFETY: the threads end before what they borrow.
        assert_eq!(unsafe { pthread_create(&mut thread, null(), run, with) }, 0);
        thread
    });
    for thread in threads {
        // SAFETY: it was created, and is joined once.
        assert_eq!(unsafe { pthread_join(thread, null_mut()) }, 0);
    }
    let status = shared.pool.status();
    assert_eq!((status.in_use, status.waiting), (0, 0));
    println!("{THREADS} threads waited {rounds} times for {ITEMS} items");
}

fn main() {
    let any = LazyPool::new(ITEMS, || Ok(0), |_| true);
    wait(any.expect("there is memory"), ROUNDS);
    let fair = LazyPool::builder(ITEMS).init(|| Ok(0)).fair().build();
    wait(fair.expect("there is memory"), FAIR_ROUNDS);
}
