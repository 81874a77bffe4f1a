//! Steps of waiters and returns in one order, where another order of the waiter's steps would lose
//! the wake.
use super::*;
use std::cell::Cell;
use std::thread;

/// A wait that is longer isn't one for a place, but for a wake that was lost.
fn lost() -> Limit {
    Instant::now().checked_add(Duration::from_secs(20))
}

fn count(waiters: &Waiters) -> usize {
    waiters.signs.load().waiting()
}

fn soon() -> Limit {
    Instant::now().checked_add(Duration::from_millis(20))
}

/// Waits for a place that another thread frees right after the first try missed it.
#[test]
fn a_return_after_a_try_is_seen_before_the_sleep() {
    let (waiters, is_free, tries) = (Waiters::default(), Cell::new(false), Cell::new(0));
    let begun = Instant::now();
    let got = waiters.wait(lost(), || {
        let got = is_free.get().then_some(());
        tries.set(tries.get() + 1);
        if !is_free.replace(true) {
            waiters.pass_on();
        }
        got
    });
    assert_eq!((got, tries.get()), (Some(()), 2));
    assert!(begun.elapsed() < Duration::from_secs(10));
    assert_eq!((count(&waiters), waiters.told.load(SeqCst)), (0, 1));
}

#[test]
fn a_return_without_waiters_is_not_told() {
    let waiters = Waiters::default();
    waiters.pass_on();
    assert_eq!(waiters.told.load(SeqCst), 0);
    waiters.close();
    assert!(waiters.signs.load().is_closed() && count(&waiters) == 0);
}

#[test]
fn who_slept_is_woken_no_more() {
    let waiters = Waiters::default();
    waiters.is_woken.store(true, SeqCst);
    assert_eq!(waiters.wait(soon(), || None::<()>), None);
    assert!(!waiters.is_woken.load(SeqCst));
    assert_eq!((count(&waiters), waiters.asleep.load(SeqCst)), (0, 0));
}

/// Lets a thread sleep while so many returns are told, and says whether it told another one, of
/// whom it thinks that it waits.
fn passes_on(returns: usize, gets: bool) -> bool {
    let (waiters, is_free) = (Waiters::default(), AtomicBool::new(false));
    waiters.signs.enter();
    let limit = if gets { lost() } else { soon() };
    let attempt = || is_free.load(SeqCst).then_some(());
    let got = thread::scope(|scope| {
        let waiter = scope.spawn(|| waiters.wait(limit, attempt));
        while gets && waiters.asleep.load(SeqCst) == 0 {
            thread::yield_now();
        }
        let locked = waiters.lock.lock();
        is_free.store(gets, SeqCst);
        waiters.told.fetch_add(returns, SeqCst);
        waiters.wakes.notify_all();
        drop(locked);
        waiter.join().expect("it ends")
    });
    assert_eq!(got.is_some(), gets);
    waiters.told.into_inner() > returns
}

#[test]
fn a_wake_is_passed_on_if_more_than_one_return_was_told() {
    assert!(!passes_on(1, true));
    assert!(passes_on(2, true));
    assert!(passes_on(3, true));
}

#[test]
fn who_gives_up_passes_a_wake_on() {
    assert!(passes_on(0, false));
}

/// Of two that sleep, one is woken by two returns, since it hasn't looked yet.
#[test]
fn one_sleeper_at_a_time_is_woken() {
    let waiters = Waiters::default();
    waiters.signs.enter();
    waiters.asleep.fetch_add(1, SeqCst);
    for _ in 0..2 {
        waiters.pass_on();
        assert!(waiters.is_woken.load(SeqCst));
    }
    assert_eq!(waiters.told.into_inner(), 2);
}
