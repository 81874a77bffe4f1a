//! Every interleaving of the protocol by which pulls of a lazy pool wait, in small cases. The steps
//! are those of `src/lazy_pool/waiters.rs`, and of the pulls and returns around them.
//!
//! Each item has a word of its own, the hardest case for a pull that reads the words one after the
//! other. At first each place is in use, and its holder returns it once: with its item, or empty,
//! as after an `init` that failed. Who gets a place later keeps it or returns it. A state is bad if
//! no thread can step, one sleeps, and a place is free. The protocol has no bad state; each wrong
//! one has.
#[path = "waiting_model/steps.rs"]
mod steps;

use std::collections::HashSet;
use steps::{Fault, State};

/// Returns how many states there are, and a bad one. It ends at the first bad one.
fn explore(items: usize, threads: [usize; 3], fault: Fault) -> (usize, Option<State>) {
    let first = State::new(items, threads, fault);
    let (mut seen, mut untried) = (HashSet::from([first.clone()]), vec![first]);
    while let Some(state) = untried.pop() {
        let threads = 0..state.threads.len();
        let after: Vec<_> = threads.flat_map(|index| state.after(index, items, fault)).collect();
        if after.is_empty() && state.is_bad() {
            return (seen.len(), Some(state));
        }
        untried.extend(after.into_iter().filter(|state| seen.insert(state.clone())));
    }
    (seen.len(), None)
}

fn none_is_bad(cases: &[(usize, [usize; 3])]) {
    for &(items, threads) in cases {
        let (states, bad) = explore(items, threads, Fault::None);
        println!("{items} items, {threads:?}: {states} states");
        assert_eq!(bad, None, "{items} items, {threads:?}");
    }
}

#[test]
fn nobody_sleeps_beside_a_free_item() {
    none_is_bad(&[(1, [2, 0, 0]), (1, [1, 1, 0]), (1, [1, 0, 2])]);
}

#[test]
#[ignore = "a minute with optimization"]
fn nobody_sleeps_beside_a_free_item_in_larger_cases() {
    none_is_bad(&[(1, [2, 0, 1]), (1, [3, 0, 0]), (1, [2, 1, 0]), (2, [2, 0, 0]), (2, [1, 1, 0])]);
}

#[test]
fn each_wrong_protocol_has_a_sleeper_beside_a_free_item() {
    let cases = [
        (Fault::ReturnTellsNobody, 1, [1, 0, 0]),
        (Fault::ReadsWaitingBeforeItsBit, 1, [1, 0, 0]),
        (Fault::ReturnIsNotCounted, 1, [1, 0, 0]),
        (Fault::CountsItselfAfterItsTry, 1, [1, 0, 0]),
        (Fault::LooksAfterItsTry, 1, [1, 0, 0]),
        (Fault::SleepsWithoutComparing, 1, [1, 0, 0]),
        (Fault::CountsAsAsleepAfterComparing, 1, [1, 0, 0]),
        (Fault::WokenOneStaysWoken, 1, [2, 0, 0]),
        (Fault::WokenOneLooksAsWoken, 1, [2, 0, 0]),
        (Fault::NobodyPassesOn, 2, [2, 0, 0]),
        (Fault::EmptyReturnTellsNobody, 1, [1, 0, 0]),
        (Fault::TellsBeforeItCountsTheEmpty, 1, [1, 0, 0]),
        (Fault::MissesEmptyPlaces, 1, [1, 0, 0]),
    ];
    for (fault, items, threads) in cases {
        let (states, bad) = explore(items, threads, fault);
        println!("{fault:?}: {states} states");
        assert!(bad.is_some(), "{fault:?}");
    }
}
