//! What another thread does at any step of a pull, of a poll or of a return of a lazy pool.
use super::*;
use crate::tests::{meanwhile, TESTED};
use std::future::Future;
use std::pin::pin;
use std::sync::atomic::{AtomicBool, Ordering::SeqCst};
use std::sync::{mpsc, Mutex, MutexGuard, PoisonError};
use std::task::{Context, Wake, Waker};
use std::thread;

/// More steps than a pull has.
const STEPS: usize = 16;

type Numbers = LazyPool<u32, ()>;
/// What the other thread has: the item, an empty place, or nothing.
type Other = Arc<Mutex<Option<Held<'static, u32, ()>>>>;

fn alone() -> MutexGuard<'static, ()> {
    TESTED.lock().unwrap_or_else(PoisonError::into_inner)
}

/// A pool of so many places and one item, which the other has.
fn held(places: usize, is_fair: bool) -> (&'static Numbers, Other) {
    let pool = LazyPool::builder(places).init(|| Ok(0));
    let pool = if is_fair { pool.fair() } else { pool };
    let pool: &Numbers = Box::leak(Box::new(pool.build().expect("there is memory")));
    assert_eq!(pool.fill(1), Ok(()));
    (pool, Arc::new(Mutex::new(Held::made(pool))))
}

/// Another thread returns what it has, and has what this finds then. It isn't waited for long: it
/// may wait for this thread.
fn goes_on(
    other: &Other,
    finds: impl FnOnce() -> Option<Held<'static, u32, ()>> + Send + 'static,
) -> Box<dyn FnOnce()> {
    let other = Arc::clone(other);
    Box::new(move || {
        let (ends, ended) = mpsc::channel();
        thread::spawn(move || {
            let has = &mut *other.lock().expect("no panic");
            drop(has.take());
            *has = finds();
            drop(ends);
        });
        let _ = ended.recv_timeout(Duration::from_millis(50)) as Result<(), _>;
    })
}

/// At most one of two places is in use: an item, or a place whose `init` fails, and an item again.
#[test]
fn an_init_that_fails_at_any_step_refuses_no_pull() {
    let _alone = alone();
    let first_and_second =
        (0..STEPS).flat_map(|first| (0..STEPS - first).map(move |second| (first, second)));
    for (first, second) in first_and_second {
        for third in 0..STEPS - first - second {
            let (pool, other) = held(2, false);
            let moves = [
                (first, goes_on(&other, || Held::empty(pool))),
                (second, goes_on(&other, || Held::made(pool))),
                (third, goes_on(&other, || Held::empty(pool))),
            ];
            let pulled = meanwhile(moves, || pool.pull().is_ok());
            assert!(pulled, "after {first}, {second} and {third} steps");
        }
    }
}

#[derive(Default)]
struct Woken(AtomicBool);

impl Wake for Woken {
    fn wake(self: Arc<Self>) {
        self.0.store(true, SeqCst);
    }
}

/// A place that another thread returns at any step of a poll is had, or the task is woken.
#[test]
fn a_return_at_any_step_of_a_poll_is_not_lost() {
    let _alone = alone();
    for is_fair in [false, true] {
        for step in 0..STEPS {
            let (pool, other) = held(1, is_fair);
            let woken = Arc::<Woken>::default();
            let waker = Waker::from(Arc::clone(&woken));
            let mut wait = pin!(pool.pull_async());
            let moves = [(step, goes_on(&other, || None))];
            let poll = || wait.as_mut().poll(&mut Context::from_waker(&waker)).is_ready();
            let is_ready = meanwhile(moves, poll);
            let is_over = other.lock().expect("no panic").is_none();
            assert!(is_ready || !is_over || woken.0.load(SeqCst), "{step}");
        }
    }
}

/// Nobody passes a task that waits, at any step of the return that is for it.
#[test]
fn a_comer_at_any_step_of_a_return_does_not_pass_the_queue() {
    let _alone = alone();
    for step in 0..STEPS {
        let (pool, other) = held(1, true);
        let item = other.lock().expect("no panic").take();
        let woken = Arc::<Woken>::default();
        let waker = Waker::from(Arc::clone(&woken));
        let mut wait = pin!(pool.pull_async());
        assert!(wait.as_mut().poll(&mut Context::from_waker(&waker)).is_pending());
        let comes = goes_on(&other, || Held::any(pool)?.ok());
        meanwhile([(step, comes)], || drop(item));
        assert!(other.lock().expect("no panic").is_none(), "after {step} steps");
        assert!(woken.0.load(SeqCst), "after {step} steps");
    }
}

/// Of two places one is in use. At any step of `fill` or `attach` another thread pulls the other one,
/// or returns its item and makes one there. No place has two items, and none is lost.
#[test]
fn what_comes_to_the_pool_beside_a_pull_has_a_place_of_its_own() {
    let _alone = alone();
    for step in 0..STEPS {
        for attaches in [false, true] {
            for finds_empty in [false, true] {
                let (pool, other) = held(2, false);
                let finds = move || match finds_empty {
                    true => Held::empty(pool),
                    false => Held::any(pool)?.ok(),
                };
                let moves = [(step, goes_on(&other, finds))];
                let came = meanwhile(moves, || match attaches {
                    true => pool.attach(7).is_ok(),
                    false => pool.fill(2) == Ok(()),
                });
                let has_one = other.lock().expect("no panic").take().is_some();
                assert!(came || has_one, "after {step} steps neither has a place");
                let status = pool.status();
                assert_eq!(status.in_use, 0, "after {step} steps");
                let all: Vec<_> = (0..2).map(|_| pool.pull().expect("it is free")).collect();
                assert_ne!(*all[0].at, *all[1].at);
                assert!(pool.pull().is_err());
            }
        }
    }
}
