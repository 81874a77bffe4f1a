//! What makes threads take their steps in an order that a test chooses.
use crate::{atomics, threads};
use std::cell::{Cell, RefCell};
use std::collections::VecDeque;
use std::sync::{Condvar, Mutex, MutexGuard, PoisonError};
use std::{mem, thread};

/// One test at a time has the numbers of threads.
pub(crate) static TESTED: Mutex<()> = Mutex::new(());

#[derive(Clone, Copy, Default, PartialEq)]
enum State {
    #[default]
    Runs,
    Waits,
    Ended,
}

/// Which of two threads goes next, at each step at which both could: those of this run, and after
/// them the first thread.
#[derive(Default)]
struct Turns {
    chosen: Vec<usize>,
    next: usize,
    states: [State; 2],
    goes: Option<usize>,
}

#[derive(Default)]
struct Schedule(Mutex<Turns>, Condvar);

thread_local! {
    static THREAD: Cell<Option<(&'static Schedule, usize)>> = const { Cell::new(None) };
}

/// What other threads do before a step of this one, and how many steps come before that, after the
/// last move.
pub(super) type Move = (usize, Box<dyn FnOnce()>);

thread_local! {
    pub(super) static MOVES: RefCell<VecDeque<Move>> = const { RefCell::new(VecDeque::new()) };
    /// The same, after this thread's looks at the library's places, and before it sets boxes.
    pub(super) static AFTER: RefCell<VecDeque<Move>> = const { RefCell::new(VecDeque::new()) };
    /// How often this thread took a lock of the library's pools.
    pub(super) static LOCKS: Cell<usize> = const { Cell::new(0) };
    /// How often it looked for a place of the library's pools, and how many steps it took.
    pub(super) static LOOKS: Cell<usize> = const { Cell::new(0) };
    pub(super) static STEPS: Cell<usize> = const { Cell::new(0) };
}

/// Makes this call, and these within it, each so many steps after the one before.
pub(crate) fn meanwhile<A>(
    moves: impl IntoIterator<Item = (usize, Box<dyn FnOnce()>)>,
    call: impl FnOnce() -> A,
) -> A {
    MOVES.set(moves.into_iter().collect());
    let answer = call();
    MOVES.take();
    answer
}

/// Makes the move that is due.
fn move_if_due(moves: &'static thread::LocalKey<RefCell<VecDeque<Move>>>) {
    let due = moves.try_with(|moves| {
        let mut moves = moves.borrow_mut();
        let next = moves.front_mut()?;
        let is_due = next.0 == 0;
        next.0 = next.0.saturating_sub(1);
        is_due.then(|| moves.pop_front()).flatten()
    });
    let due = due.ok().flatten(); // at a thread's end there is none
    due.into_iter().for_each(|(_, call)| call());
}

/// Is called after each look at the library's places, before the thread knows whether it found one.
pub(crate) fn looked(found: bool) {
    let _ = LOOKS.try_with(|looks| looks.set(looks.get() + 1));
    if found {
        atomics::show();
    }
    move_if_due(&AFTER);
}

/// Is called before a box is set.
pub(crate) fn sets() {
    move_if_due(&AFTER);
}

/// Is called before each return to the library.
pub(crate) fn returns() {
    step();
    atomics::show();
}

/// Is called before each lock of a pool of the library.
pub(crate) fn locks() {
    LOCKS.set(LOCKS.get() + 1);
}

/// Is called before each step that other threads may see. It waits for the thread's turn.
pub(crate) fn step() {
    let _ = STEPS.try_with(|steps| steps.set(steps.get() + 1));
    move_if_due(&MOVES);
    if let Some((schedule, thread)) = THREAD.get() {
        let mut turns = schedule.leave(thread, State::Waits);
        while turns.goes != Some(thread) {
            turns = schedule.1.wait(turns).expect("no panic");
        }
        turns.goes = None;
        turns.states[thread] = State::Runs;
    }
}

impl Schedule {
    /// Says that this thread doesn't run, and who goes if none does.
    fn leave(&self, thread: usize, state: State) -> MutexGuard<'_, Turns> {
        let mut turns = self.0.lock().expect("no panic");
        turns.states[thread] = state;
        turns.goes = match (turns.goes, turns.states) {
            (None, [State::Waits, State::Waits]) => Some(turns.choose()),
            (None, [State::Waits, State::Ended]) => Some(0),
            (None, [State::Ended, State::Waits]) => Some(1),
            (goes, _) => goes,
        };
        self.1.notify_all();
        turns
    }
}

impl Turns {
    fn choose(&mut self) -> usize {
        self.next += 1;
        self.chosen.resize(self.next.max(self.chosen.len()), 0);
        self.chosen[self.next - 1]
    }
}

/// A thread's end, by a panic too.
struct Running(&'static Schedule, usize);

impl Drop for Running {
    fn drop(&mut self) {
        THREAD.set(None);
        drop(self.0.leave(self.1, State::Ended));
    }
}

/// Runs both works in each interleaving of their steps, of which there are at least so many, and
/// checks what is left.
pub(super) fn explore<S: Sync>(
    least: usize,
    make: impl Fn() -> S,
    works: [fn(&S); 2],
    check: impl Fn(S),
) {
    explore_after(|_, _| (), usize::MAX, least, make, works, check);
}

/// The same, with so many changes of the thread at most.
pub(super) fn explore_changes<S: Sync>(
    changes: usize,
    least: usize,
    make: impl Fn() -> S,
    works: [fn(&S); 2],
    check: impl Fn(S),
) {
    explore_after(|_, _| (), changes, least, make, works, check);
}

/// Returns the next choice after this one. Those before its last one change so often at most.
fn next_choice(mut chosen: Vec<usize>, changes: usize) -> Option<Vec<usize>> {
    loop {
        while chosen.last() == Some(&1) {
            chosen.pop();
        }
        *chosen.last_mut()? = 1;
        let changed = chosen.windows(2).filter(|two| two[0] != two[1]);
        if changed.count() <= changes {
            return Some(chosen);
        }
    }
}

/// The same, after each thread did what comes first, and with so many changes of the thread at most.
pub(super) fn explore_after<S: Sync>(
    first: fn(&S, usize),
    changes: usize,
    least: usize,
    make: impl Fn() -> S,
    works: [fn(&S); 2],
    check: impl Fn(S),
) {
    let _alone = TESTED.lock().unwrap_or_else(PoisonError::into_inner);
    let (mut chosen, mut runs) = (Vec::new(), 0);
    loop {
        let schedule: &'static Schedule = Box::leak(Box::default());
        schedule.0.lock().expect("no panic").chosen = chosen;
        let shared = make();
        thread::scope(|scope| {
            for (thread, work) in works.into_iter().enumerate() {
                let shared = &shared;
                scope.spawn(move || {
                    threads::with(|_| ()); // it has its number
                    first(shared, thread);
                    THREAD.set(Some((schedule, thread)));
                    let _running = Running(schedule, thread);
                    step();
                    work(shared);
                    atomics::show();
                });
            }
        });
        check(shared);
        runs += 1;
        chosen = mem::take(&mut schedule.0.lock().expect("no panic").chosen);
        match next_choice(chosen, changes) {
            Some(next) => chosen = next,
            None => break,
        }
    }
    assert!(least <= runs, "{runs} interleavings");
}
