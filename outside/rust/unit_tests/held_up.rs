//! Calls of a pool that grows, two of which are held up at any of their steps, while others are
//! made. Whatever was returned by a call that is over is found: no item is made in its place.
use super::steps::{Move, MOVES};
use super::{counted, TESTED};
use crate::{threads, LinearObjectPool, LinearOwnedReusable};
use std::collections::VecDeque;
use std::sync::atomic::Ordering::SeqCst;
use std::sync::mpsc::{channel, Receiver, RecvTimeoutError, Sender};
use std::sync::{Arc, PoisonError};
use std::thread::{self, JoinHandle};
use std::time::Duration;
use std::{iter, mem};

const ITEMS: usize = 20;
/// How many items are returned while calls are held up.
const RETURNS: usize = 5;
/// How many steps come before the one at which a call is held up, at most.
const STEPS: usize = 9;

type Item = LinearOwnedReusable<usize>;

#[derive(Clone, Copy, Debug, PartialEq)]
enum Call {
    Pull,
    Return,
}

/// A call of a thread that is held up until it is told to go on.
struct HeldUp {
    goes_on: Sender<()>,
    stands: Receiver<()>,
    thread: JoinHandle<()>,
}

impl HeldUp {
    /// Begins a call, by what threads share, and waits until it stands after so many steps or ends.
    fn begin(pool: &Arc<LinearObjectPool<usize>>, call: Call, item: Item, steps: usize) -> HeldUp {
        let (stand, stands) = channel();
        let (goes_on, may_go_on) = channel::<()>();
        let pool = Arc::clone(pool);
        let thread = thread::spawn(move || {
            let told = stand.clone();
            let hold_up = move || {
                told.send(()).expect("somebody waits");
                let told = may_go_on.recv_timeout(Duration::from_secs(60));
                told.expect("it is told in time");
            };
            let held_up: Move = (steps, Box::new(hold_up));
            MOVES.set(VecDeque::from([held_up]));
            threads::with(|_| match call {
                Call::Pull => mem::forget((pool.pull_owned(), item)),
                Call::Return => drop(item),
            });
            MOVES.take();
        });
        let held_up = HeldUp { goes_on, stands, thread };
        held_up.wait();
        held_up
    }

    fn wait(&self) {
        let stands = self.stands.recv_timeout(Duration::from_secs(60));
        assert_ne!(stands, Err(RecvTimeoutError::Timeout), "it hangs");
    }

    fn end(self) {
        let _ = self.goes_on.send(()); // or it has ended
        self.thread.join().expect("it ends");
    }
}

/// Holds up one call, pulls some items by what threads share and some by this thread's own way,
/// holds up another call, ends the first one, returns some items and pulls as many as are free.
fn try_order([first, second]: [(Call, usize); 2], shared: usize, own: usize) {
    let (pool, count) = counted();
    let mut items: Vec<_> = (0..ITEMS).map(|_| pool.pull_owned()).collect();
    let of_first_part = items.remove(0);
    threads::with(|_| drop(of_first_part));
    let _near = pool.pull(); // so this thread's next pull begins in the first part
    let mut next = || items.remove(ITEMS / 2); // all are of the second part
    let held_up = HeldUp::begin(&pool, first.0, next(), first.1);
    let made = || count.load(SeqCst);
    let mut pulled: Vec<_> = (0..shared).map(|_| threads::with(|_| pool.pull())).collect();
    pulled.extend((0..own).map(|_| pool.pull()));
    let other = HeldUp::begin(&pool, second.0, next(), second.1);
    held_up.end();
    let returned: Vec<_> = iter::repeat_with(next).take(RETURNS).collect();
    let give_back = || threads::with(|_| drop(returned));
    thread::scope(|scope| scope.spawn(give_back).join()).expect("it ends");
    // Each pull took a free item or made one. The second call may have come so far.
    let calls = [first.0, second.0];
    let all_pulls = pulled.len() + calls.iter().filter(|call| **call == Call::Pull).count();
    let returns = RETURNS + usize::from(first.0 == Call::Return);
    let free = (returns + made() - ITEMS).saturating_sub(all_pulls);
    let before = made();
    let _again: Vec<_> = (0..free).map(|_| pool.pull()).collect();
    let pulls = pulled.len();
    assert_eq!(made(), before, "{first:?}, {pulls} pulls, {second:?}");
    other.end();
}

#[test]
fn calls_that_are_held_up_hide_nothing() {
    let _alone = TESTED.lock().unwrap_or_else(PoisonError::into_inner);
    let calls = || {
        let pulls = (0..STEPS).map(|steps| (Call::Pull, steps));
        pulls.chain((0..6).map(|steps| (Call::Return, steps)))
    };
    for first in calls() {
        for second in calls() {
            for (shared, own) in [(0, 0), (0, 1), (0, 2), (1, 0), (1, 1), (2, 0)] {
                try_order([first, second], shared, own);
            }
        }
    }
}
