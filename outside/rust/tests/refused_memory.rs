//! Where memory is refused, a pool says so, and nothing is left of what it asked for before.
#![cfg(not(feature = "portable"))] // memory is asked for by the proved code
mod heap;

use heap::{zeros, ASKED, HELD, REFUSED};
use kundratu_pool::{LazyPool, LinearObjectPool, NewError, Pool, PullError};
use std::fs::read_to_string;
use std::future::Future;
use std::pin::pin;
use std::process::Command;
use std::sync::atomic::{AtomicUsize, Ordering::SeqCst};
use std::sync::Arc;
use std::task::{Context, Wake, Waker};
use std::time::Duration;
use std::{env, iter, mem, thread};

#[repr(C)]
struct Limit {
    now: u64,
    most: u64,
}

unsafe extern "C" {
    safe fn setrlimit(resource: i32, limit: &Limit) -> i32;
}

/// Pulls all that is free, for good.
fn count_free(pool: &Pool<u32>) -> usize {
    iter::from_fn(|| pool.pull().map(mem::forget)).count()
}

/// Makes this call as often as it is refused memory, at each of its requests in turn, and once
/// more. No refused call leaves a block behind. Returns how often it was refused.
fn refuse_each<A>(call: impl Fn() -> Option<A>) -> usize {
    for request in 0.. {
        let held = HELD.get();
        ASKED.set(0);
        REFUSED.set(request);
        let done = call().is_some();
        REFUSED.set(usize::MAX);
        assert_eq!(HELD.get(), held, "after request {request}");
        if done {
            return request;
        }
    }
    unreachable!("some call has memory")
}

#[test]
fn an_opening_that_is_refused_memory_says_so_and_leaves_nothing() {
    let _alone = heap::alone();
    let open = || {
        let pool = Pool::with_reset(100, || 0, |number| *number = 0);
        assert!(pool.is_ok() || matches!(pool, Err(NewError::Memory)));
        REFUSED.set(usize::MAX);
        assert!(pool.iter().all(|pool| pool.pull().is_some()));
        pool.ok()
    };
    drop(zeros(1).pull()); // the thread has its number
    assert!(3 <= refuse_each(open), "the items, the library's pool and a handle ask");
}

/// A thread asks for the memory of its slot and of its handle at its first call, and does without.
#[test]
fn a_pull_whose_thread_is_refused_memory_answers_an_item() {
    let _alone = heap::alone();
    let is_refused = |&request: &usize| {
        let pool = zeros(20);
        let run = || {
            ASKED.set(0);
            REFUSED.set(request);
            let mut items = [(); 20].map(|()| pool.pull());
            let is_none = pool.pull().is_none();
            items[7] = None;
            items[7] = pool.pull();
            REFUSED.set(usize::MAX);
            assert!(items.iter().all(Option::is_some) && is_none);
            request < ASKED.get()
        };
        let ran = thread::scope(|scope| scope.spawn(run).join());
        ran.expect("each pull answers")
    };
    assert!(2 <= (0..).take_while(is_refused).count());
}

/// The same where the first call of a thread is a return.
#[test]
fn a_return_whose_thread_is_refused_memory_returns_its_item() {
    let _alone = heap::alone();
    let is_refused = |&request: &usize| {
        let pool = zeros(20);
        let items: Vec<_> = iter::from_fn(|| pool.pull()).collect();
        let run = || {
            ASKED.set(0);
            REFUSED.set(request);
            drop(items);
            REFUSED.set(usize::MAX);
            request < ASKED.get()
        };
        let ran = thread::scope(|scope| scope.spawn(run).join());
        assert_eq!(count_free(&pool), 20);
        ran.expect("each return is made")
    };
    assert!(2 <= (0..).take_while(is_refused).count());
}

/// A thread whose first calls of a linear pool are refused memory leaves nothing at its end: what it
/// returned is pulled again.
#[test]
fn a_thread_that_is_refused_memory_keeps_nothing_past_its_end() {
    let _alone = heap::alone();
    let is_refused = |&request: &usize| {
        let made = Arc::new(AtomicUsize::new(0));
        let count = Arc::clone(&made);
        let pool = LinearObjectPool::new(move || count.fetch_add(1, SeqCst), |_| ());
        let in_a_thread = |call: &(dyn Fn() -> bool + Sync)| {
            thread::scope(|scope| scope.spawn(call).join().expect("it ends"))
        };
        in_a_thread(&|| *pool.pull() == 0); // it is made, and comes back at that thread's end
        let is_over = in_a_thread(&|| {
            ASKED.set(0);
            REFUSED.set(request);
            let numbers = [(); 2].map(|()| *pool.pull());
            REFUSED.set(usize::MAX);
            assert_eq!(numbers, [0; 2]);
            request >= ASKED.get()
        });
        assert_eq!((*pool.pull(), made.load(SeqCst)), (0, 1), "at request {request}");
        !is_over
    };
    assert!(2 <= (0..).take_while(is_refused).count());
}

/// From here on the process gets little more address space than it has.
fn refuse_memory() {
    const ADDRESSES: i32 = 9;
    let pages = read_to_string("/proc/self/statm").expect("it is Linux");
    let pages = pages.split(' ').next().and_then(|pages| pages.parse().ok());
    let now = pages.map_or(0, |pages: u64| pages * 4096) + (1 << 20);
    let limit = Limit { now, most: now };
    assert_eq!(setrlimit(ADDRESSES, &limit), 0);
}

/// A block of memory, if it isn't refused.
fn block(bytes: usize) -> Option<Vec<u8>> {
    let mut block = Vec::new();
    block.try_reserve_exact(bytes).ok()?;
    Some(block)
}

/// It runs itself once more in a process whose memory is refused.
#[test]
fn where_memory_is_refused_a_pool_is_and_no_pull() {
    let _alone = heap::alone();
    const ITEMS: usize = 1_000_000;
    if env::var_os("KUNDRATU_REFUSE_MEMORY").is_none() {
        let mut again = Command::new(env::current_exe().expect("it has a name"));
        again.args(["--exact", "where_memory_is_refused_a_pool_is_and_no_pull"]);
        let ran = again.env("KUNDRATU_REFUSE_MEMORY", "1").output().expect("it runs");
        assert!(ran.status.success(), "{}", String::from_utf8_lossy(&ran.stdout));
        return;
    }
    let (pool, other) = (zeros(ITEMS), zeros(1));
    drop((pool.pull(), other.pull())); // the thread has its slots
    let mut held = Vec::with_capacity(ITEMS);
    let mut blocks = Vec::with_capacity(1 << 20);
    let for_the_harness = vec![0_u8; 1 << 20];
    refuse_memory();
    for bytes in [1 << 16, 1 << 12, 256, 64, 48, 32, 16] {
        blocks.extend(iter::from_fn(|| block(bytes)));
    }
    let refused = (Pool::new(1 << 18, || [0_u64; 512], |_| ()).err(), other.pull().is_some());
    held.extend(iter::from_fn(|| pool.pull()));
    drop((blocks, for_the_harness));
    assert_eq!(refused, (Some(NewError::Memory), true));
    assert_eq!(held.len(), ITEMS);
}

/// A linear pool that is refused memory ends the process, as `Vec` does: it runs itself once more
/// for some of its requests. A pull goes by what threads share if its thread's memory is refused.
#[test]
fn where_memory_is_refused_a_linear_pool_answers_or_ends_the_process() {
    const NAME: &str = "where_memory_is_refused_a_linear_pool_answers_or_ends_the_process";
    if let Ok(request) = env::var("KUNDRATU_REFUSE_REQUEST") {
        let request = request.parse().expect("it is a number");
        let pool = LinearObjectPool::<u32>::new(|| 7, |number| *number = 7);
        let mut items = Vec::with_capacity(100);
        ASKED.set(0);
        REFUSED.set(request);
        items.extend((0..100).map(|_| pool.pull()));
        items.iter_mut().for_each(|item| **item += 1);
        REFUSED.set(usize::MAX);
        let is_done = request >= ASKED.get();
        assert!(items.iter().all(|item| **item == 8));
        drop(items);
        assert_eq!(*pool.pull(), 7);
        println!("{}", if is_done { "all was given" } else { "went on" });
        return;
    }
    let mut went_on = 0;
    for request in (0..).step_by(7) {
        let mut again = Command::new(env::current_exe().expect("it has a name"));
        again.args(["--exact", NAME, "--nocapture"]);
        again.env("KUNDRATU_REFUSE_REQUEST", request.to_string());
        again.env("RUST_BACKTRACE", "0");
        let ran = again.output().expect("it runs");
        let said = String::from_utf8_lossy(&ran.stdout).into_owned();
        let error = String::from_utf8_lossy(&ran.stderr);
        if ran.status.success() && said.contains("all was given") {
            break;
        }
        went_on += usize::from(said.contains("went on"));
        let ended = error.contains("memory allocation of");
        assert!(ended || ran.status.success() && said.contains("went on"), "{request}: {error}");
    }
    assert!(1 <= went_on, "a thread does without its own handle");
}

#[test]
fn a_lazy_pool_that_is_refused_memory_says_so_and_leaves_nothing() {
    let _alone = heap::alone();
    drop(zeros(1).pull()); // the thread has its number
    let open = || {
        let pool = LazyPool::<u32, ()>::new(100, || Ok(0), |_| true);
        assert!(pool.is_ok() || matches!(pool, Err(NewError::Memory)));
        pool.ok()
    };
    assert!(4 <= refuse_each(open), "the states, the items and two pools");
}

/// Makes this call, whose first request is refused. Returns how often it asked.
fn refuse_first<A>(call: impl FnOnce() -> A) -> (A, usize) {
    ASKED.set(0);
    REFUSED.set(0);
    let answer = call();
    REFUSED.set(usize::MAX);
    (answer, ASKED.get())
}

/// It has no place in the queue then, and asks to be polled again.
#[test]
fn a_task_that_is_refused_memory_comes_again() {
    struct Counts(AtomicUsize);
    impl Wake for Counts {
        fn wake(self: Arc<Self>) {
            self.0.fetch_add(1, SeqCst);
        }
    }
    let _alone = heap::alone();
    let pool = LazyPool::<u32, ()>::new(1, || Ok(0), |_| true).expect("there is memory");
    let counts = Arc::new(Counts(AtomicUsize::new(0)));
    let waker = Waker::from(Arc::clone(&counts));
    let mut context = Context::from_waker(&waker);
    let item = pool.pull();
    let mut wait = pin!(pool.pull_async());
    let (poll, asked) = refuse_first(|| wait.as_mut().poll(&mut context).is_pending());
    assert_eq!((poll, asked, counts.0.load(SeqCst)), (true, 1, 1));
    assert_eq!(pool.status().waiting, 0);
    assert!(wait.as_mut().poll(&mut context).is_pending());
    assert_eq!((pool.status().waiting, counts.0.load(SeqCst)), (1, 1));
    drop(item);
    assert_eq!(counts.0.load(SeqCst), 2);
    assert!(wait.as_mut().poll(&mut context).is_ready());
}

/// A thread of a fair pool asks until its limit, and what looks at free items looks at none.
#[test]
fn a_fair_pull_and_retain_that_are_refused_memory_lose_nothing() {
    let _alone = heap::alone();
    let pool = LazyPool::<u32, ()>::builder(2).init(|| Ok(0)).fair();
    let pool = pool.build().expect("there is memory");
    let held = [pool.pull(), pool.pull()];
    let time = Duration::from_millis(20);
    let (pulled, asked) = refuse_first(|| pool.pull_timeout(time).map(drop));
    assert_eq!((pulled, asked > 1), (Err(PullError::TimedOut), true));
    drop(held);
    assert_eq!(refuse_first(|| pool.retain(|_, _| false)), (0, 1));
    assert_eq!((pool.status().made, pool.status().in_use), (2, 0));
    assert_eq!(pool.retain(|_, _| false), 2);
}
