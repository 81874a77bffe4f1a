//! How many steps calls take in pools of many sizes, and how often they look for a place of the
//! library: that takes a read of each word of 32 places.
use super::steps::{LOOKS, STEPS};
use super::{counted, in_a_thread, TESTED};
use crate::{LazyPool, Pool};
use std::cell::Cell;
use std::iter;
use std::sync::{Barrier, PoisonError};
use std::thread::{self, LocalKey};

/// How much a count grows in a call.
fn grows(count: &'static LocalKey<Cell<usize>>, call: impl FnOnce()) -> usize {
    let before = count.get();
    call();
    count.get() - before
}

/// A full pool is looked through once more after a return, by any thread, and then by none.
#[test]
fn a_pull_of_a_pool_that_is_known_to_be_full_looks_at_no_word() {
    let _alone = TESTED.lock().unwrap_or_else(PoisonError::into_inner);
    let pool = Pool::<u32>::new(1_000, || 0, |_| ()).expect("there is memory");
    let mut items: Vec<_> = iter::from_fn(|| pool.pull()).collect();
    assert_eq!(items.len(), 1_000);
    let refused = || grows(&LOOKS, || assert!(pool.pull().is_none()));
    let by_other = || thread::scope(|scope| scope.spawn(refused).join().expect("it ends"));
    assert_eq!([refused(), refused(), by_other(), by_other()], [0; 4]);
    for _ in 0..3 {
        items.truncate(998); // one of them is kept, the other one isn't
        items.extend([pool.pull(), pool.pull()].into_iter().flatten());
        assert_eq!(items.len(), 1_000);
        assert!(by_other() <= 2);
        assert_eq!([refused(), by_other()], [0; 2]);
    }
}

/// Steps of a pull that makes an item: of 64 pulls the fewest, since some make a part too.
fn steps_of_a_making(pull: impl Fn()) -> usize {
    (0..64).map(|_| grows(&STEPS, &pull)).min().unwrap_or(0)
}

#[test]
fn a_new_item_takes_as_many_steps_however_many_items_and_threads_there_are() {
    let _alone = TESTED.lock().unwrap_or_else(PoisonError::into_inner);
    let (grown, _) = counted();
    let lazy = LazyPool::<u32, ()>::new(40_000, || Ok(0), |_| true).expect("there is memory");
    let grow = || std::mem::forget(grown.pull());
    let make = || std::mem::forget(lazy.pull());
    // The thread has its slots, and found what another one returned.
    let item = grown.pull_owned();
    in_a_thread(move || drop(item));
    grow();
    make();
    let few = [steps_of_a_making(grow), steps_of_a_making(make)];
    let all_come = Barrier::new(20);
    thread::scope(|scope| {
        let come = || {
            let _items = (grown.pull(), lazy.pull());
            all_come.wait();
        };
        let all: Vec<_> = (0..20).map(|_| scope.spawn(come)).collect();
        let ended = all.into_iter().map(|thread| thread.join());
        ended.for_each(|ended| ended.expect("it ends"));
    });
    (0..30_000).for_each(|_| grow());
    (0..30_000).for_each(|_| make());
    assert_eq!([steps_of_a_making(grow), steps_of_a_making(make)], few);
    assert!(few.iter().all(|steps| *steps < 30), "{few:?}");
    let looks = grows(&LOOKS, || (0..1_000).for_each(|_| make()));
    assert!(looks <= 1_010, "{looks} looks, of which one a pull finds an empty place");
}
