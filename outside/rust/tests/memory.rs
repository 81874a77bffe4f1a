//! What a pool asks of the allocator: nothing for a turn, little where items go from thread to
//! thread, and all of it comes back.
#![cfg(not(feature = "portable"))] // memory is asked for by the proved code
mod heap;

use heap::{zeros, ASKED, HELD};
use kundratu_pool::{LazyPool, LinearObjectPool, NewError, OwnedReusable, Pool};
use std::ffi::c_void;
use std::panic::{catch_unwind, resume_unwind, AssertUnwindSafe};
use std::ptr::null_mut;
use std::sync::atomic::{AtomicU32, Ordering::SeqCst};
use std::sync::{mpsc, Arc, Barrier, OnceLock};
use std::time::Duration;
use std::{iter, mem, thread};

// The calls of the library under the crate. A handle that is empty is null.
unsafe extern "C" {
    #[link_name = "kdr_0_1_0_handle_new"]
    safe fn handle_new(items: usize, tag: usize, out: &mut *mut c_void) -> u32;
    #[link_name = "kdr_0_1_0_handle_share"]
    safe fn handle_share(handle: &mut *mut c_void, out: &mut *mut c_void) -> u32;
    #[link_name = "kdr_0_1_0_pool_drop"]
    safe fn pool_drop(handle: &mut *mut c_void) -> u32;
}

#[test]
fn a_million_handles_are_opened_and_closed() {
    let _alone = heap::alone();
    drop(zeros(1)); // the crate, and so the library, is linked
    let (mut first, held) = (null_mut(), HELD.get());
    assert_eq!(handle_new(1, 0, &mut first), 0);
    let opened = HELD.get();
    for _ in 0..1_000_000 {
        let mut other = null_mut();
        assert_eq!(handle_share(&mut first, &mut other), 0);
        assert_eq!(pool_drop(&mut other), 0);
    }
    assert_eq!(HELD.get(), opened);
    assert_eq!(pool_drop(&mut first), 0);
    assert_eq!(HELD.get(), held);
}

/// What glibc says of its heap.
#[repr(C)]
struct Info {
    arena: usize,
    free_chunks: usize,
    fast_chunks: usize,
    mapped_chunks: usize,
    mapped: usize,
    unused: [usize; 2],
    used: usize,
    free: usize,
    top: usize,
}

unsafe extern "C" {
    safe fn mallinfo2() -> Info;
}

fn used() -> usize {
    let info = mallinfo2();
    info.used + info.mapped
}

#[test]
fn turns_ask_for_no_memory() {
    let _alone = heap::alone();
    let pool = zeros(100);
    let mut held = Vec::with_capacity(100);
    let mut turn = |most: usize| {
        for count in 0..=most {
            held.extend(iter::from_fn(|| pool.pull()).take(count));
            held.clear();
        }
    };
    turn(100);
    let before = ASKED.get();
    turn(100);
    assert_eq!(ASKED.get(), before);
}

#[test]
fn returns_ask_for_no_memory_whoever_makes_them() {
    let _alone = heap::alone();
    let pool = zeros(200);
    let ask = |held: Vec<_>| {
        let before = ASKED.get();
        held.into_iter().for_each(drop);
        ASKED.get() - before
    };
    assert_eq!(ask(iter::from_fn(|| pool.pull()).collect()), 0);
    for _ in 0..3 {
        let mut held: Vec<_> = iter::from_fn(|| pool.pull()).collect();
        assert_eq!(held.len(), 200);
        let other = thread::scope(|scope| {
            let other = scope.spawn(|| {
                held.pop(); // the thread has its slot
                ask(held)
            });
            other.join().expect("it ends")
        });
        assert_eq!(other, 0);
    }
}

#[test]
fn forgotten_items_keep_their_places_and_no_memory() {
    let _alone = heap::alone();
    drop(zeros(1).pull()); // the thread has its number
    let pools = || {
        let (pool, grows) = (zeros(64), LinearObjectPool::<u32>::new(|| 0, |_| ()));
        (0..40).for_each(|_| mem::forget((pool.pull(), grows.pull())));
        assert_eq!(iter::from_fn(|| pool.pull()).collect::<Vec<_>>().len(), 24);
    };
    // A thread notes the linear pools that it uses, for a while past their ends.
    (0..100).for_each(|_| pools());
    let held = HELD.get();
    (0..1_000).for_each(|_| pools());
    assert!((HELD.get() - held).abs() < 200);
}

/// A thread asks for memory at its first pull of a pool. Later it asks for none, and a linear pool
/// for none but where it grows.
#[test]
fn later_pulls_of_threads_ask_for_no_memory() {
    let _alone = heap::alone();
    const THREADS: usize = 70;
    let grows = LinearObjectPool::<u32>::new(|| 0, |_| ());
    let (pool, all_hold) = (zeros(THREADS), Barrier::new(THREADS));
    let run = || {
        drop((pool.pull(), grows.pull()));
        let before = ASKED.get();
        let items = (pool.pull(), grows.pull());
        all_hold.wait();
        let is_held = items.0.is_some();
        drop(items);
        (is_held, ASKED.get() - before)
    };
    let threads = thread::scope(|scope| {
        let threads: Vec<_> = (0..THREADS).map(|_| scope.spawn(run)).collect();
        let ran = threads.into_iter().map(|thread| thread.join());
        ran.map(|ran| ran.expect("it ends")).collect::<Vec<_>>()
    });
    assert_eq!(threads, [(true, 0); THREADS]);
}

/// Waits until no thread of a test that has ended frees memory any more.
fn settle() {
    let mut last = used();
    for _ in 0..500 {
        thread::sleep(Duration::from_millis(20));
        if used() == last {
            return;
        }
        last = used();
    }
}

/// Bytes of the heap that this takes, and what it made.
fn bytes<A>(make: impl FnOnce() -> A) -> (usize, A) {
    settle();
    let before = used();
    let made = make();
    (used().saturating_sub(before), made)
}

/// A place whose item wasn't made since that panicked is used again.
#[test]
fn an_init_that_panics_leaves_its_place_free() {
    let _alone = heap::alone();
    let pool = LinearObjectPool::<u64>::new(|| resume_unwind(Box::new(())), |_| ());
    let pull = || assert!(catch_unwind(AssertUnwindSafe(|| drop(pool.pull()))).is_err());
    pull();
    settle();
    let before = used();
    (0..10_000).for_each(|_| pull());
    let grown = used().saturating_sub(before);
    assert!(grown < 50_000, "{grown} bytes more");
}

#[test]
fn an_unused_pool_is_small() {
    let _alone = heap::alone();
    drop(zeros(1).pull()); // the thread has its number
    let make = || LinearObjectPool::<u64>::new(|| 0, |number| *number = 0);
    let (empty, pool) = bytes(|| Box::new(make()));
    assert!(empty <= 2_048, "{empty} bytes");
    let (pulled, ()) = bytes(|| drop(pool.pull()));
    assert!(empty + pulled <= 8_192, "{pulled} bytes more");
}

#[test]
fn turns_of_a_linear_pool_ask_for_no_memory() {
    let _alone = heap::alone();
    let pool = Arc::new(LinearObjectPool::<u32>::new(|| 0, |number| *number = 0));
    let mut held = Vec::with_capacity(500);
    let mut turn = || {
        for count in 0..=500 {
            held.extend((0..count).map(|_| pool.pull_owned()));
            held.clear();
        }
    };
    (0..50).for_each(|_| turn());
    let before = ASKED.get();
    turn();
    assert_eq!(ASKED.get(), before);
}

#[test]
fn a_refused_pull_asks_for_no_memory_and_answers_at_once() {
    let _alone = heap::alone();
    let pool = Arc::new(zeros(1));
    let other = thread::scope(|scope| scope.spawn(|| pool.pull_owned()).join());
    let _item = other.expect("it ends");
    assert!(pool.pull().is_none());
    let before = ASKED.get();
    let begun = std::time::Instant::now();
    for _ in 0..1_000 {
        assert!(pool.pull().is_none() && pool.pull_owned().is_none());
    }
    assert!(begun.elapsed().as_millis() < 1_000);
    assert_eq!(ASKED.get(), before);
}

/// One thread pulls, another drops.
fn pass(pool: &Arc<Pool<u32>>, turns: usize) {
    let (sender, receiver) = mpsc::sync_channel::<OwnedReusable<u32>>(4);
    let pool = Arc::clone(pool);
    let pulling = thread::spawn(move || {
        for _ in 0..turns {
            let item = iter::repeat_with(|| pool.pull_owned()).flatten().next();
            sender.send(item.expect("the iterator has no end")).expect("it is read");
        }
    });
    receiver.iter().for_each(drop);
    pulling.join().expect("it ends");
}

#[test]
fn items_that_go_from_thread_to_thread_take_no_more_memory() {
    let _alone = heap::alone();
    let pool = Arc::new(zeros(16));
    pass(&pool, 5_000);
    let before = used();
    pass(&pool, 100_000);
    let grown = used().saturating_sub(before);
    assert!(grown < 100_000, "{grown} bytes more");
}

#[test]
fn threads_that_end_leave_nothing_behind() {
    let _alone = heap::alone();
    let pool = Arc::new(zeros(16));
    let run = |threads: usize| {
        for _ in 0..threads {
            let pool = Arc::clone(&pool);
            thread::spawn(move || assert!(pool.pull().is_some())).join().expect("it ends");
        }
    };
    run(200);
    let before = used();
    run(2_000);
    let grown = used().saturating_sub(before);
    assert!(grown < 100_000, "{grown} bytes more");
}

#[test]
fn pools_that_end_leave_nothing_behind() {
    let _alone = heap::alone();
    let run = |pools: usize| {
        for _ in 0..pools {
            let (pool, grows) = (zeros(64), LinearObjectPool::<u32>::new(|| 0, |_| ()));
            let first = (pool.pull(), grows.pull());
            let _second = (pool.pull(), grows.pull());
            drop(first);
            let rest: Vec<_> = iter::from_fn(|| pool.pull()).collect();
            assert!(pool.pull().is_none());
            drop(rest);
        }
    };
    run(100);
    let before = used();
    run(3_000);
    let grown = used().saturating_sub(before);
    assert!(grown < 100_000, "{grown} bytes more");
}

/// A thread keeps places of many pools, and is there past their ends.
#[test]
fn pools_end_though_threads_keep_places_of_theirs() {
    let _alone = heap::alone();
    let (sender, receiver) = mpsc::channel::<Arc<LinearObjectPool<u32>>>();
    let keeps = thread::spawn(move || receiver.iter().for_each(|pool| drop(pool.pull_owned())));
    let run = |pools: usize| {
        for _ in 0..pools {
            let pool = Arc::new(LinearObjectPool::new(|| 0, |_| ()));
            sender.send(Arc::clone(&pool)).expect("it is read");
            while Arc::strong_count(&pool) > 1 {
                thread::yield_now();
            }
        }
    };
    run(100);
    let before = used();
    run(3_000);
    let grown = used().saturating_sub(before);
    assert!(grown < 100_000, "{grown} bytes more");
    drop(sender);
    keeps.join().expect("it ends");
}

/// A thread has some bytes of each linear pool that it used, for a while past its end.
#[test]
fn pools_that_end_leave_few_bytes_to_a_thread_that_used_them() {
    let _alone = heap::alone();
    const POOLS: usize = 1_000;
    let run = || {
        let pools = [(); POOLS].map(|()| LinearObjectPool::<u32>::new(|| 0, |_| ()));
        pools.iter().for_each(|pool| drop(pool.pull()));
    };
    drop(zeros(1).pull()); // the thread has its number
    let (left, ()) = bytes(run);
    assert!(left <= POOLS * 1_000, "{left} bytes");
    let (more, ()) = bytes(|| (0..5).for_each(|_| run()));
    assert!(left + more <= 2 * POOLS * 1_000, "{more} bytes more");
}

unsafe extern "C" {
    safe fn pthread_key_create(key: &mut u32, end: extern "C" fn(*mut c_void)) -> i32;
    safe fn pthread_setspecific(key: u32, value: *const c_void) -> i32;
}

static LATE: OnceLock<(Pool<u32>, LinearObjectPool<u32>)> = OnceLock::new();
static MADE: AtomicU32 = AtomicU32::new(0);

extern "C" fn pull_late(_: *mut c_void) {
    let (pool, grows) = LATE.get().expect("it is there");
    drop((pool.pull(), grows.pull()));
    drop((pool.pull(), grows.pull()));
}

/// A thread first pulls after its thread locals have ended. glibc itself leaves some bytes of it.
#[test]
fn threads_that_first_pull_at_their_end_leave_nothing_behind() {
    let _alone = heap::alone();
    let init = || MADE.fetch_add(1, SeqCst);
    let pools = LATE.get_or_init(|| (zeros(8), LinearObjectPool::new(init, |_| ())));
    let mut key = 0;
    assert_eq!(pthread_key_create(&mut key, pull_late), 0);
    let run = move || assert_eq!(pthread_setspecific(key, (&raw const LATE).cast()), 0);
    let threads = |count| (0..count).for_each(|_| thread::spawn(run).join().expect("it ends"));
    threads(100);
    let (grown, ()) = bytes(|| threads(2_000));
    assert!(grown <= 2_000 * 100, "{grown} bytes more");
    assert_eq!(MADE.load(SeqCst), 1);
    assert_eq!(iter::from_fn(|| pools.0.pull()).collect::<Vec<_>>().len(), 8);
}

/// A linear pool makes a part only where it has no place left.
#[test]
fn a_linear_pool_asks_for_memory_where_its_parts_are_full() {
    let _alone = heap::alone();
    drop(zeros(1).pull()); // the thread has its number
    let grows = LinearObjectPool::<u32>::new(|| 0, |_| ());
    let mut items = Vec::with_capacity(57);
    let pull = |_: &usize| {
        let before = ASKED.get();
        items.push(grows.pull());
        before < ASKED.get()
    };
    assert_eq!((0..57).filter(pull).collect::<Vec<_>>(), [0, 8, 24, 56]);
}

fn lazy(items: usize) -> Result<LazyPool<u32, ()>, NewError> {
    LazyPool::new(items, || Ok(0), |_| true)
}

#[test]
fn turns_of_a_lazy_pool_ask_for_no_memory() {
    let _alone = heap::alone();
    drop(zeros(1).pull()); // the thread has its number
    let (taken, pool) = bytes(|| lazy(4).expect("there is memory"));
    assert!(taken <= 4_096, "{taken} bytes");
    let turn = || {
        let items = [pool.pull(), pool.pull_wait(), pool.pull()];
        items.into_iter().flatten().for_each(drop);
        assert_eq!(pool.pull().map(|item| item.detach()), Ok(0));
        pool.clear();
    };
    turn();
    let before = ASKED.get();
    (0..100).for_each(|_| turn());
    assert_eq!(ASKED.get(), before);
}
