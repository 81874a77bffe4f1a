//! Numbers of threads.
use super::steps::MOVES;
use super::{counted, in_a_thread, one_move, TESTED};
use crate::threads::{pull_number, return_number, with, CALLS, FIRST, NUMBERS};
use std::cell::RefCell;
use std::collections::HashSet;
use std::ffi::c_void;
use std::ptr::NonNull;
use std::sync::atomic::{AtomicUsize, Ordering::SeqCst};
use std::sync::mpsc::{channel, Sender};
use std::sync::{Arc, Barrier, PoisonError};
use std::{iter, thread};

/// Returns the number of this thread, if it has one.
fn own() -> Option<usize> {
    with(|number| number.map(|number| number.get()))
}

#[test]
fn numbers_are_given_back_by_threads_that_end() {
    let _alone = TESTED.lock().unwrap_or_else(PoisonError::into_inner);
    for _ in 0..FIRST * 10 {
        let number = thread::spawn(own).join().expect("it ends");
        assert!(number.is_some_and(|number| number < FIRST));
    }
}

/// The numbers of so many threads that run at once, of those that have one.
fn numbers_at_once(threads: usize) -> Vec<usize> {
    let all_run = Barrier::new(threads);
    let run = || {
        let number = own();
        all_run.wait();
        assert_eq!(own(), number);
        number
    };
    thread::scope(|scope| {
        let threads: Vec<_> = (0..threads).map(|_| scope.spawn(run)).collect();
        let numbers = threads.into_iter().map(|thread| thread.join());
        numbers.filter_map(|number| number.expect("it ends")).collect()
    })
}

#[test]
fn threads_that_run_at_once_have_different_numbers() {
    let _alone = TESTED.lock().unwrap_or_else(PoisonError::into_inner);
    for threads in [5, 70, 600] {
        let numbers = numbers_at_once(threads);
        assert_eq!(numbers.len(), threads);
        assert_eq!(numbers.iter().collect::<HashSet<_>>().len(), threads);
        // Those of the first groups are given first. Some threads of the harness may have one.
        let most = (threads + 8).next_power_of_two();
        assert!(numbers.iter().all(|number| *number < most));
    }
}

#[test]
fn a_call_within_a_call_has_no_number() {
    let _alone = TESTED.lock().unwrap_or_else(PoisonError::into_inner);
    let numbers = thread::spawn(|| with(|number| [number.map(|n| n.get()), own()]));
    let [outer, inner] = numbers.join().expect("it ends");
    assert!(outer.is_some() && inner.is_none());
}

/// Tells at its end whether its thread has a number.
struct Teller(Sender<Option<usize>>);

impl Drop for Teller {
    fn drop(&mut self) {
        self.0.send(own()).expect("somebody reads");
    }
}

thread_local! {
    static EARLY: RefCell<Option<Teller>> = const { RefCell::new(None) };
    static LATE: RefCell<Option<Teller>> = const { RefCell::new(None) };
}

/// Of the two tellers one ends after the thread's number was given back, in whichever order a
/// thread's values end.
#[test]
fn a_thread_has_no_number_once_it_was_given_back() {
    let _alone = TESTED.lock().unwrap_or_else(PoisonError::into_inner);
    let (sender, receiver) = channel();
    let run = move || {
        EARLY.set(Some(Teller(sender.clone())));
        assert!(own().is_some());
        LATE.set(Some(Teller(sender)));
    };
    thread::spawn(run).join().expect("it ends");
    assert!(receiver.iter().any(|number| number.is_none()));
}

/// At no step at which a thread returns what it keeps, another one has its number.
#[test]
fn a_number_is_given_back_after_what_its_thread_keeps() {
    let _alone = TESTED.lock().unwrap_or_else(PoisonError::into_inner);
    for before in 0..8 {
        let (pool, _) = counted();
        let (met, meets) = channel();
        let other = Arc::clone(&pool);
        in_a_thread(move || {
            MOVES.take(); // so that this ends after the thread's number
            drop(other.pull());
            let number = own();
            let meet = move || in_a_thread(move || met.send(own() == number).expect("one reads"));
            MOVES.set([one_move(before, meet)].into());
        });
        let is_met = meets.iter().next();
        let is_told = is_met.is_some() || !cfg!(target_os = "linux"); // elsewhere `MOVES` may end first
        assert!(before > 0 || is_told, "it returned nothing");
        assert_ne!(is_met, Some(true), "at step {before}");
    }
}

/// A thread that came when all numbers were out asks again at each 64th call.
#[test]
#[allow(unsafe_code)]
fn a_thread_without_a_number_gets_one_later() {
    let _alone = TESTED.lock().unwrap_or_else(PoisonError::into_inner);
    let run = || {
        let numbers: Vec<_> = iter::from_fn(pull_number).collect();
        assert!(numbers.len() <= NUMBERS && own().is_none());
        let number = pull_number();
        // SAFETY: each was pulled, and is returned once.
        let give_back = |number| unsafe { return_number(number) };
        numbers.into_iter().for_each(give_back);
        let calls = (1..1_000).find(|_| own().is_some());
        (number, calls)
    };
    let ran = thread::spawn(run).join().expect("it ends");
    assert_eq!(ran, (None, Some(CALLS as usize)));
}

#[allow(unsafe_code)]
unsafe extern "C" {
    fn pthread_key_create(key: &mut u32, end: extern "C" fn(*mut c_void)) -> i32;
    safe fn pthread_setspecific(key: u32, value: *const c_void) -> i32;
}

/// How many threads had a number in a destructor of a key, of the first ones, and had none.
static LATE_NUMBERS: [AtomicUsize; 2] = [const { AtomicUsize::new(0) }; 2];

extern "C" fn call_late(_: *mut c_void) {
    let is_first = own().is_some_and(|number| number < FIRST);
    LATE_NUMBERS[usize::from(!is_first)].fetch_add(1, SeqCst);
}

/// Such a destructor runs after a thread's locals have ended. The number comes back all the same.
#[test]
#[allow(unsafe_code)]
fn a_number_that_is_asked_for_after_a_threads_locals_is_given_back() {
    let _alone = TESTED.lock().unwrap_or_else(PoisonError::into_inner);
    let mut key = 0;
    // SAFETY: the destructor needs no value.
    assert_eq!(unsafe { pthread_key_create(&mut key, call_late) }, 0);
    for has_number in [false, true] {
        for _ in 0..FIRST * 10 {
            let run = move || {
                assert!(!has_number || own().is_some());
                pthread_setspecific(key, NonNull::<c_void>::dangling().as_ptr())
            };
            assert_eq!(thread::spawn(run).join().expect("it ends"), 0);
        }
    }
    // Those whose first call came before have given theirs back.
    let numbers = LATE_NUMBERS.each_ref().map(|count| count.load(SeqCst));
    assert_eq!(numbers, [FIRST * 10; 2]);
}
