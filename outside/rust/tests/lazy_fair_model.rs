//! Every interleaving of the queue of a fair lazy pool, in small cases. The steps are those of
//! `src/pools/lazy/queue.rs` and `turn.rs`. A look for a place is one step, since a refused one had a
//! moment at which no place was free (`lazy_refusal_model.rs`).
//!
//! At first each place is in use, and its holder returns it once. Who gets a place later keeps it
//! or returns it. A state is bad if no thread can step, and one sleeps beside a free place, or with
//! a place that was handed to it, or a count isn't right. It is bad too if a thread gets a place
//! before one that waited when it came. The protocol has no bad state; each wrong one has.
use std::collections::HashSet;

#[derive(Clone, Copy, Debug, PartialEq, Eq)]
enum Fault {
    None,
    ReturnServesNobody,
    ReadsWaitingBeforeItsReturn,
    EntersWithoutServing,
    ServesAfterItEntered,
    CountsItselfAfterServing,
    HandedOneIsNotWoken,
    LeavesWithItsPlace,
    HandsWithoutCountingOff,
    ComersPassTheQueue,
    HandsToTheLast,
    ReturnHandsWithoutTheLock,
}

/// The step that a thread does next.
#[derive(Clone, Copy, Debug, PartialEq, Eq, Hash, PartialOrd, Ord)]
enum Step {
    /// A pull: it reads how many wait, and tries.
    Comes,
    Tries,
    /// It comes last, and counts itself. If nobody waits before it, it serves with the same lock.
    Enters,
    Counts,
    /// It serves the first one: with the lock it takes a place, hands it over, and wakes.
    Locks,
    Takes,
    Hands,
    Wakes,
    /// It looks whether a place was handed to it, and sleeps.
    Looks,
    Parks,
    Leaves,
    /// It has a place, and keeps it or returns it.
    Has,
    Returns,
    ReadsWaiting,
    Ended,
}
use Step::*;

#[derive(Clone, Copy, Debug, PartialEq, Eq, Hash, PartialOrd, Ord)]
enum Kind {
    Waiter,
    /// It may give up at any time.
    Timed,
    /// A pull that doesn't wait.
    Passer,
}

#[derive(Clone, Debug, PartialEq, Eq, Hash)]
struct Thread {
    kind: Kind,
    step: Step,
    /// Whether it serves as one that comes, and not as one that returned.
    enters: bool,
    /// A wake that it hasn't used yet, whom it is to wake, and who waited when it came.
    token: bool,
    wakes: usize,
    ahead: Vec<usize>,
    saw_waiting: bool,
}

#[derive(Clone, Debug, PartialEq, Eq, Hash)]
struct State {
    free: u8,
    /// How many places are kept for good.
    kept: u8,
    waiting: u8,
    /// Who waits, and whether a place was handed to it.
    queue: Vec<(usize, bool)>,
    is_locked: bool,
    threads: Vec<Thread>,
    is_out_of_order: bool,
}

impl State {
    fn new(places: usize, [waiters, timed, passers]: [usize; 3], fault: Fault) -> State {
        let thread = |kind, step| Thread {
            kind,
            step,
            enters: false,
            token: false,
            wakes: 0,
            ahead: vec![],
            saw_waiting: false,
        };
        let holder = thread(Kind::Waiter, returns(fault));
        let mut threads = vec![holder; places];
        let comers = [(Kind::Waiter, waiters), (Kind::Timed, timed), (Kind::Passer, passers)];
        for (kind, count) in comers {
            threads.extend((0..count).map(|_| thread(kind, Comes)));
        }
        State {
            free: 0,
            kept: 0,
            waiting: 0,
            queue: vec![],
            is_locked: false,
            threads,
            is_out_of_order: false,
        }
    }

    fn with(&self, me: usize, change: impl FnOnce(&mut State)) -> State {
        let mut state = self.clone();
        change(&mut state);
        if state.threads[me].step == Has {
            let thread = std::mem::take(&mut state.threads[me].ahead);
            let waits = |other: &usize| state.queue.contains(&(*other, false));
            state.is_out_of_order |= thread.iter().any(waits);
        }
        if matches!(state.threads[me].step, Ended | Returns) {
            state.threads[me].ahead.clear();
        }
        state
    }

    fn goes(&self, me: usize, step: Step) -> Vec<State> {
        vec![self.with(me, |state| state.threads[me].step = step)]
    }

    /// The states after one step of a thread.
    fn after(&self, me: usize, fault: Fault) -> Vec<State> {
        let thread = &self.threads[me];
        let change = |change: &dyn Fn(&mut State)| vec![self.with(me, change)];
        match thread.step {
            Comes => change(&|state| {
                let waiting = state.queue.iter().filter(|(_, handed)| !handed);
                state.threads[me].ahead = waiting.map(|(other, _)| *other).collect();
                let minds = state.waiting > 0 && fault != Fault::ComersPassTheQueue;
                state.threads[me].step = match (minds, state.threads[me].kind) {
                    (false, _) => Tries,
                    (true, Kind::Passer) => Ended,
                    (true, _) => Enters,
                };
            }),
            Tries if self.free > 0 => change(&|state| {
                state.free -= 1;
                state.threads[me].step = Has;
            }),
            Tries if thread.kind == Kind::Passer => self.goes(me, Ended),
            Tries => self.goes(me, Enters),
            Enters | Leaves if self.is_locked => vec![],
            Enters => change(&|state| {
                let is_first = state.queue.iter().all(|(_, is_handed)| *is_handed);
                state.queue.push((me, false));
                state.waiting += u8::from(fault != Fault::CountsItselfAfterServing);
                state.threads[me].enters = true;
                state.threads[me].step = match fault {
                    Fault::EntersWithoutServing => Looks,
                    Fault::ServesAfterItEntered if is_first => Locks,
                    _ if is_first => Takes,
                    _ => state.has_served(me, fault),
                };
                state.is_locked = state.threads[me].step == Takes;
            }),
            Counts => change(&|state| {
                state.waiting += 1;
                state.threads[me].step = Looks;
            }),
            Locks | Takes | Hands | Wakes => self.serve(me, fault),
            Looks if self.queue.contains(&(me, true)) => self.goes(me, Leaves),
            Looks => {
                let gives_up = (thread.kind == Kind::Timed).then(|| self.goes(me, Leaves));
                [self.goes(me, Parks), gives_up.unwrap_or_default()].concat()
            }
            Parks if thread.token || thread.kind == Kind::Timed => change(&|state| {
                (state.threads[me].token, state.threads[me].step) = (false, Looks);
            }),
            Parks | Ended => vec![],
            Leaves => self.leave(me, fault),
            Has => {
                let keeps = change(&|state| {
                    (state.kept, state.threads[me].step) = (state.kept + 1, Ended);
                });
                [keeps, self.goes(me, returns(fault))].concat()
            }
            Returns => change(&|state| {
                state.free += 1;
                state.threads[me].enters = false;
                state.threads[me].step = match (fault, state.threads[me].saw_waiting) {
                    (Fault::ReturnServesNobody, _) => Ended,
                    (Fault::ReadsWaitingBeforeItsReturn, false) => Ended,
                    (Fault::ReadsWaitingBeforeItsReturn, true) => Locks,
                    _ => ReadsWaiting,
                };
            }),
            ReadsWaiting if fault == Fault::ReadsWaitingBeforeItsReturn => change(&|state| {
                state.threads[me].saw_waiting = state.waiting > 0;
                state.threads[me].step = Returns;
            }),
            ReadsWaiting => self.goes(me, if self.waiting > 0 { Locks } else { Ended }),
        }
    }

    /// Who gives up, or got a place, leaves the queue.
    fn leave(&self, me: usize, fault: Fault) -> Vec<State> {
        vec![self.with(me, |state| {
            let at = state.queue.iter().position(|(other, _)| *other == me);
            let (_, is_handed) = state.queue.remove(at.expect("it is in the queue"));
            state.waiting -= u8::from(!is_handed);
            let keeps = fault == Fault::LeavesWithItsPlace && state.threads[me].kind == Kind::Timed;
            state.threads[me].step = match is_handed && !keeps {
                true => Has,
                false => Ended,
            };
        })]
    }

    /// The steps of one that serves the queue.
    fn serve(&self, me: usize, fault: Fault) -> Vec<State> {
        let unhanded = |state: &State| {
            let mut waiting = (0..state.queue.len()).filter(|&at| !state.queue[at].1);
            match fault {
                Fault::HandsToTheLast => waiting.next_back(),
                _ => waiting.next(),
            }
        };
        let is_unlocked = fault == Fault::ReturnHandsWithoutTheLock;
        let change = |change: &dyn Fn(&mut State)| vec![self.with(me, change)];
        match self.threads[me].step {
            Locks if self.is_locked && !is_unlocked => vec![],
            Locks => change(&|state| {
                (state.is_locked, state.threads[me].step) = (!is_unlocked, Takes);
            }),
            Takes if self.free > 0 && unhanded(self).is_some() => change(&|state| {
                state.free -= 1;
                state.threads[me].step = Hands;
            }),
            Takes => change(&|state| {
                (state.is_locked, state.threads[me].step) = (false, state.has_served(me, fault));
            }),
            Hands => change(&|state| {
                state.is_locked = false;
                let Some(at) = unhanded(state) else {
                    state.threads[me].step = Ended; // the place is lost
                    return;
                };
                state.queue[at].1 = true;
                let counts = fault != Fault::HandsWithoutCountingOff;
                state.waiting = state.waiting.saturating_sub(u8::from(counts));
                (state.threads[me].wakes, state.threads[me].step) = (state.queue[at].0, Wakes);
            }),
            Wakes => change(&|state| {
                let other = state.threads[me].wakes;
                let wakes = fault != Fault::HandedOneIsNotWoken && other != me;
                state.threads[other].token |= wakes && state.threads[other].step != Ended;
                (state.threads[me].wakes, state.threads[me].step) =
                    (0, state.has_served(me, fault));
            }),
            step => unreachable!("{step:?}"),
        }
    }

    /// What one does after it served.
    fn has_served(&self, me: usize, fault: Fault) -> Step {
        match (self.threads[me].enters, fault) {
            (true, Fault::CountsItselfAfterServing) => Counts,
            (true, _) => Looks,
            (false, _) => Ended,
        }
    }

    /// Whether one sleeps for nothing, or a place or a count is lost, where none can step.
    fn is_bad(&self, places: usize) -> bool {
        let sleeps = self.threads.iter().any(|thread| thread.step == Parks);
        let is_handed = self.queue.iter().any(|(_, handed)| *handed);
        let is_counted = usize::from(self.waiting) == self.queue.len();
        let are_there = usize::from(self.free + self.kept) == places;
        (sleeps && self.free > 0) || is_handed || !is_counted || !are_there
    }
}

/// A return reads who waits after it, if it isn't wrong.
fn returns(fault: Fault) -> Step {
    match fault {
        Fault::ReadsWaitingBeforeItsReturn => ReadsWaiting,
        _ => Returns,
    }
}

/// Returns how many states there are, and a bad one. It ends at the first bad one.
fn explore(places: usize, threads: [usize; 3], fault: Fault) -> (usize, Option<State>) {
    let first = State::new(places, threads, fault);
    let (mut seen, mut untried) = (HashSet::from([first.clone()]), vec![first]);
    while let Some(state) = untried.pop() {
        let threads = 0..state.threads.len();
        let after: Vec<_> = threads.flat_map(|me| state.after(me, fault)).collect();
        if state.is_out_of_order || (after.is_empty() && state.is_bad(places)) {
            return (seen.len(), Some(state));
        }
        untried.extend(after.into_iter().filter(|state| seen.insert(state.clone())));
    }
    (seen.len(), None)
}

fn none_is_bad(cases: &[(usize, [usize; 3])]) {
    for &(places, threads) in cases {
        let (states, bad) = explore(places, threads, Fault::None);
        println!("{places} places, {threads:?}: {states} states");
        assert_eq!(bad, None, "{places} places, {threads:?}");
    }
}

#[test]
fn places_go_to_those_that_wait_in_their_order() {
    none_is_bad(&[
        (1, [2, 0, 0]),
        (1, [1, 1, 0]),
        (1, [1, 0, 1]),
        (2, [1, 0, 0]),
        (2, [0, 1, 0]),
        (2, [0, 0, 2]),
        (2, [2, 0, 0]),
    ]);
}

#[test]
#[ignore = "some seconds with optimization"]
fn places_go_to_those_that_wait_in_their_order_in_larger_cases() {
    none_is_bad(&[(1, [2, 1, 0]), (1, [2, 0, 1]), (2, [1, 1, 0]), (1, [3, 0, 0]), (1, [1, 1, 1])]);
}

#[test]
fn each_wrong_queue_has_a_sleeper_or_another_order() {
    let cases = [
        (Fault::ReturnServesNobody, 1, [1, 0, 0]),
        (Fault::ReadsWaitingBeforeItsReturn, 1, [1, 0, 0]),
        (Fault::EntersWithoutServing, 1, [1, 0, 0]),
        (Fault::ServesAfterItEntered, 2, [2, 0, 0]),
        (Fault::CountsItselfAfterServing, 1, [1, 0, 0]),
        (Fault::HandedOneIsNotWoken, 1, [1, 0, 0]),
        (Fault::LeavesWithItsPlace, 1, [1, 1, 0]),
        (Fault::HandsWithoutCountingOff, 1, [1, 0, 0]),
        (Fault::ComersPassTheQueue, 1, [1, 0, 1]),
        (Fault::HandsToTheLast, 1, [2, 0, 0]),
        (Fault::ReturnHandsWithoutTheLock, 2, [1, 0, 0]),
    ];
    for (fault, places, threads) in cases {
        let (states, bad) = explore(places, threads, fault);
        println!("{fault:?}: {states} states");
        assert!(bad.is_some(), "{fault:?}");
    }
}
