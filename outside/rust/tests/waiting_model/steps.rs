//! The states of the model, and the steps from one to the next.

const ITEMS: usize = 2;

/// The step that a thread does next.
#[derive(Clone, Copy, Debug, PartialEq, Eq, Hash, PartialOrd, Ord)]
pub enum Step {
    /// A pull that waits: it counts itself, looks how many returns were told, and tries.
    Enter,
    Look,
    ReadEmpties,
    Read,
    Clear,
    /// No item is free: it counts an empty place off and pulls it, or compares what it read.
    TakeEmpty,
    PullEmpty,
    CompareEmpties,
    /// It missed: it locks and counts as asleep, compares, and sleeps.
    Missed,
    Lock,
    Compare,
    Asleep,
    Woken,
    Wakes,
    /// It has an item, or gives up.
    Leave,
    PassOn,
    Has,
    GiveUp,
    /// A return: it sets its bit and tells.
    SetBit,
    SetEmpty,
    CountEmpty,
    ReadWaiting,
    Count,
    ReadAsleep,
    ReadWoken,
    Choose,
    Notify,
    Told,
    End,
}
use Step::*;

#[derive(Clone, Copy, Debug, PartialEq, Eq, Hash, PartialOrd, Ord)]
pub enum Kind {
    Holder,
    Waiter,
    /// It may stop waiting at any time.
    Timed,
    /// A pull that doesn't wait.
    Passer,
}

#[derive(Clone, Copy, Debug, PartialEq, Eq, Hash, PartialOrd, Ord)]
pub struct Thread {
    kind: Kind,
    step: Step,
    /// How many returns were told since it looked, and since it fell asleep, up to two.
    told: u8,
    /// Whether it read that no place is empty, and whether one came since.
    saw_none: bool,
    came_since: bool,
    slept: Option<u8>,
    /// The word that it is at, and how many are left to read.
    word: usize,
    left: usize,
    /// What follows once it told.
    has: bool,
}

#[derive(Clone, Debug, PartialEq, Eq, Hash)]
pub struct State {
    free: [bool; ITEMS],
    /// The places that are empty and free, and how many are counted.
    empty: [bool; ITEMS],
    empties: u8,
    waiting: u8,
    asleep: u8,
    is_woken: bool,
    is_locked: bool,
    pub threads: Vec<Thread>,
}

/// What a wrong protocol leaves out or does in another order.
#[derive(Clone, Copy, Debug, PartialEq)]
pub enum Fault {
    None,
    ReturnTellsNobody,
    ReadsWaitingBeforeItsBit,
    ReturnIsNotCounted,
    CountsItselfAfterItsTry,
    LooksAfterItsTry,
    SleepsWithoutComparing,
    CountsAsAsleepAfterComparing,
    WokenOneStaysWoken,
    WokenOneLooksAsWoken,
    NobodyPassesOn,
    EmptyReturnTellsNobody,
    TellsBeforeItCountsTheEmpty,
    MissesEmptyPlaces,
}

impl Thread {
    /// Counts a return that was told.
    fn count(&mut self) {
        self.told = (self.told + 1).min(2);
        self.slept = self.slept.map(|told| (told + 1).min(2));
        self.forget();
    }

    /// Forgets what it doesn't read any more.
    fn forget(&mut self) {
        if !matches!(self.step, Read | Clear | TakeEmpty | CompareEmpties) {
            (self.saw_none, self.came_since) = (false, false);
        }
        if matches!(self.step, Look | ReadEmpties | Enter | Missed | Lock | End) {
            (self.word, self.left) = (0, 0);
        }
        if self.kind == Kind::Holder || matches!(self.step, Enter | Has | End | GiveUp) {
            (self.told, self.slept) = (0, None);
        }
        if self.kind == Kind::Passer {
            self.told = 0;
        }
    }
}

impl State {
    pub fn new(items: usize, [waiters, timed, passers]: [usize; 3], fault: Fault) -> State {
        let thread = |kind, step, word| Thread {
            kind,
            step,
            told: 0,
            saw_none: false,
            came_since: false,
            slept: None,
            word,
            left: 0,
            has: false,
        };
        let returns = match fault {
            Fault::ReadsWaitingBeforeItsBit => ReadWaiting,
            _ => SetBit,
        };
        let enters = match fault {
            Fault::CountsItselfAfterItsTry => Look,
            _ => Enter,
        };
        let mut threads: Vec<_> =
            (0..items).map(|item| thread(Kind::Holder, returns, item)).collect();
        threads.extend((0..waiters).map(|_| thread(Kind::Waiter, enters, 0)));
        threads.extend((0..timed).map(|_| thread(Kind::Timed, enters, 0)));
        threads.extend((0..passers).map(|_| thread(Kind::Passer, Look, 0)));
        let free = [false; ITEMS];
        State {
            free,
            empty: free,
            empties: 0,
            waiting: 0,
            asleep: 0,
            is_woken: false,
            is_locked: false,
            threads,
        }
    }

    /// The state with another step of one thread. Threads of a kind are alike, so they are sorted.
    fn with(&self, index: usize, change: impl FnOnce(&mut State, &mut Thread)) -> State {
        let mut state = self.clone();
        let mut thread = state.threads[index];
        change(&mut state, &mut thread);
        thread.forget();
        state.threads[index] = thread;
        state.threads.sort_unstable();
        state
    }

    /// The states after one step of a thread.
    pub fn after(&self, index: usize, items: usize, fault: Fault) -> Vec<State> {
        let me = self.threads[index];
        let goes = |step: Step| vec![self.with(index, |_, me| me.step = step)];
        // A read of a word, or the next one.
        let next = |me: &mut Thread| {
            (me.word, me.left) = ((me.word + 1) % items, me.left - 1);
            me.step = match (me.left, fault) {
                (0, Fault::MissesEmptyPlaces) => Missed,
                (0, _) => TakeEmpty,
                _ => Read,
            };
        };
        match me.step {
            Enter => vec![self.with(index, |state, me| {
                state.waiting += 1;
                me.step = if fault == Fault::CountsItselfAfterItsTry { Lock } else { Look };
            })],
            Look => vec![self.with(index, |_, me| (me.told, me.step) = (0, ReadEmpties))],
            ReadEmpties => (0..items)
                .map(|word| {
                    self.with(index, |state, me| {
                        (me.saw_none, me.came_since) = (state.empties == 0, false);
                        (me.word, me.left, me.step) = (word, items, Read)
                    })
                })
                .collect(),
            Read if self.free[me.word] => goes(Clear),
            Read => vec![self.with(index, |_, me| next(me))],
            Clear if self.free[me.word] => vec![self.with(index, |state, me| {
                state.free[me.word] = false;
                me.step = if me.kind == Kind::Passer { Has } else { Leave };
            })],
            Clear => vec![self.with(index, |_, me| next(me))],
            TakeEmpty | PullEmpty | CompareEmpties => self.take_empty(index),
            Missed => {
                let sleeps = self.with(index, |state, me| {
                    if fault == Fault::LooksAfterItsTry {
                        me.told = 0;
                    }
                    me.step = match (me.kind, fault) {
                        (Kind::Passer, _) => End,
                        (_, Fault::CountsItselfAfterItsTry) => Enter,
                        _ => Lock,
                    };
                    if fault == Fault::WokenOneLooksAsWoken && me.slept.is_some() {
                        state.is_woken = false;
                    }
                });
                let gives_up = (me.kind == Kind::Timed && fault != Fault::CountsItselfAfterItsTry)
                    .then(|| goes(GiveUp));
                [vec![sleeps], gives_up.unwrap_or_default()].concat()
            }
            Lock | Compare | Woken | Wakes => self.sleep(index, fault),
            // A time that is over wakes it too.
            Asleep if me.kind == Kind::Timed => goes(Woken),
            Asleep | End => vec![],
            Leave => vec![self.with(index, |state, me| {
                state.waiting -= 1;
                (me.has, me.step) = (true, PassOn);
            })],
            PassOn => {
                let is_due = me.slept.is_some_and(|told| told > 1);
                goes(if is_due && fault != Fault::NobodyPassesOn { ReadWaiting } else { Has })
            }
            GiveUp => vec![self.with(index, |state, me| {
                state.waiting -= 1;
                me.step = ReadWaiting;
            })],
            Has => {
                let returns =
                    if fault == Fault::ReadsWaitingBeforeItsBit { ReadWaiting } else { SetBit };
                let gives = self.with(index, |_, me| {
                    (me.kind, me.has, me.step) = (Kind::Holder, false, returns)
                });
                [goes(End), vec![gives]].concat()
            }
            // The item is thrown away, or there is none since its `init` failed.
            SetBit if fault != Fault::ReadsWaitingBeforeItsBit => {
                [self.tell(index, fault), goes(SetEmpty)].concat()
            }
            _ => self.tell(index, fault),
        }
    }

    /// The steps of a pull that found no item.
    fn take_empty(&self, index: usize) -> Vec<State> {
        let me = self.threads[index];
        let goes = |step: Step| vec![self.with(index, |_, me| me.step = step)];
        match me.step {
            TakeEmpty if self.empties > 0 => vec![self.with(index, |state, me| {
                state.empties -= 1;
                me.step = PullEmpty;
            })],
            TakeEmpty if me.saw_none => goes(CompareEmpties),
            TakeEmpty => goes(ReadEmpties),
            PullEmpty => {
                let empty = (0..ITEMS).filter(|&word| self.empty[word]);
                let pulled = empty.map(|word| {
                    self.with(index, |state, me| {
                        state.empty[word] = false;
                        me.word = word;
                        me.step = if me.kind == Kind::Passer { Has } else { Leave };
                    })
                });
                let pulled: Vec<_> = pulled.collect();
                assert!(!pulled.is_empty(), "one was counted, and none is free");
                pulled
            }
            CompareEmpties if me.came_since || self.empties > 0 => goes(ReadEmpties),
            CompareEmpties => goes(Missed),
            step => unreachable!("{step:?}"),
        }
    }

    /// The steps of a waiter from its lock to its next look.
    fn sleep(&self, index: usize, fault: Fault) -> Vec<State> {
        let me = self.threads[index];
        match me.step {
            Lock | Woken if self.is_locked => vec![],
            Lock => vec![self.with(index, |state, me| {
                state.is_locked = true;
                state.asleep += u8::from(fault != Fault::CountsAsAsleepAfterComparing);
                me.step = Compare;
            })],
            Compare if fault == Fault::CountsAsAsleepAfterComparing && me.left == 0 => {
                vec![self.with(index, |_, me| {
                    // It compares now, and counts itself in its next step.
                    me.left = 1 + usize::from(me.told > 0);
                })]
            }
            Compare => vec![self.with(index, |state, me| {
                let late = fault == Fault::CountsAsAsleepAfterComparing;
                let sleeps = match late {
                    true => me.left == 1,
                    false => me.told == 0 || fault == Fault::SleepsWithoutComparing,
                };
                state.is_locked = false;
                state.asleep = state.asleep + u8::from(late) - u8::from(!sleeps);
                (me.slept, me.step) = (None, if sleeps { Asleep } else { Look });
            })],
            Woken => vec![self.with(index, |state, me| {
                state.is_locked = true;
                if !matches!(fault, Fault::WokenOneStaysWoken | Fault::WokenOneLooksAsWoken) {
                    state.is_woken = false;
                }
                me.step = Wakes;
            })],
            Wakes => vec![self.with(index, |state, me| {
                state.is_locked = false;
                state.asleep -= 1;
                (me.slept, me.step) = (Some(me.told), Look);
            })],
            step => unreachable!("{step:?}"),
        }
    }

    /// The steps of a return, and of a waiter that wakes another.
    fn tell(&self, index: usize, fault: Fault) -> Vec<State> {
        let me = self.threads[index];
        let early = fault == Fault::ReadsWaitingBeforeItsBit && me.kind == Kind::Holder;
        let goes = |step: Step| vec![self.with(index, |_, me| me.step = step)];
        match me.step {
            SetBit => vec![self.with(index, |state, me| {
                state.free[me.word] = true;
                me.step = match (fault, early) {
                    (Fault::ReturnTellsNobody, _) => End,
                    (_, true) => {
                        if me.has {
                            Count
                        } else {
                            End
                        }
                    }
                    _ => ReadWaiting,
                };
            })],
            SetEmpty => vec![self.with(index, |state, me| {
                state.empty[me.word] = true;
                me.step = match fault {
                    Fault::TellsBeforeItCountsTheEmpty => ReadWaiting,
                    _ => CountEmpty,
                };
                me.left = 0;
            })],
            CountEmpty => vec![self.with(index, |state, me| {
                state.empties += 1;
                for other in &mut state.threads {
                    other.came_since =
                        matches!(other.step, Read | Clear | TakeEmpty | CompareEmpties);
                }
                me.step = match fault {
                    Fault::TellsBeforeItCountsTheEmpty | Fault::EmptyReturnTellsNobody => End,
                    _ => ReadWaiting,
                };
            })],
            ReadWaiting if early => {
                vec![self.with(index, |state, me| (me.has, me.step) = (state.waiting > 0, SetBit))]
            }
            ReadWaiting => goes(if self.waiting > 0 { Count } else { Told }),
            Count => vec![self.with(index, |state, me| {
                if fault != Fault::ReturnIsNotCounted {
                    state.threads.iter_mut().for_each(Thread::count);
                    me.count();
                }
                me.step = ReadAsleep;
            })],
            ReadAsleep => goes(if self.asleep > 0 { ReadWoken } else { Told }),
            ReadWoken => goes(if self.is_woken { Told } else { Choose }),
            Choose if self.is_locked => vec![],
            Choose => vec![self.with(index, |state, me| {
                me.step = if state.asleep > 0 && !state.is_woken { Notify } else { Told };
                state.is_woken |= state.asleep > 0;
            })],
            Notify => self.notify(index),
            Told if self.is_uncounted(&me, fault) => goes(CountEmpty),
            Told => goes(if me.has && me.kind != Kind::Holder { Has } else { End }),
            step => unreachable!("{step:?}"),
        }
    }

    /// Whether a return told of an empty place that it has still to count.
    fn is_uncounted(&self, me: &Thread, fault: Fault) -> bool {
        fault == Fault::TellsBeforeItCountsTheEmpty
            && me.kind == Kind::Holder
            && self.empty[me.word]
    }

    /// Any one that sleeps is woken.
    fn notify(&self, index: usize) -> Vec<State> {
        let asleep = (0..self.threads.len()).filter(|&other| self.threads[other].step == Asleep);
        let woken = asleep.map(|other| {
            let mut state = self.clone();
            state.threads[other].step = Woken;
            state.with(index, |_, me| me.step = Told)
        });
        let woken: Vec<_> = woken.collect();
        match woken.is_empty() {
            true => vec![self.with(index, |_, me| me.step = Told)],
            false => woken,
        }
    }

    /// Whether a thread sleeps beside a free item, or the counts aren't right, where none can step.
    pub fn is_bad(&self) -> bool {
        let sleep = self.threads.iter().filter(|thread| thread.step == Asleep).count();
        let is_counted =
            [self.waiting, self.asleep].iter().all(|&count| usize::from(count) == sleep);
        let is_free = self.free.contains(&true) || self.empty.contains(&true);
        !is_counted || (sleep > 0 && is_free)
    }
}
