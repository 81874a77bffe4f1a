//! Who waits for a place of a lazy pool in turn: tasks, and in a fair pool threads too.
use super::places::{Any, Closed, Places};
use crate::{library::Place, lock};
use std::sync::atomic::{AtomicU64, AtomicUsize, Ordering::SeqCst};
use std::{collections::VecDeque, sync::Mutex, task::Waker, thread::Thread};

pub(super) enum Wake {
    Thread(Thread),
    Task(Waker),
}

impl Wake {
    fn wake(self) {
        match self {
            Wake::Thread(thread) => thread.unpark(),
            Wake::Task(waker) => waker.wake(),
        }
    }
}

#[derive(Default)]
pub(super) struct Queue {
    /// How many wait, and were handed no place.
    waiting: AtomicUsize,
    /// The last ticket to which a place was handed.
    served: AtomicU64,
    line: Mutex<Line>,
}

/// All who wait, by their tickets. Those that were handed a place come first.
#[derive(Default)]
struct Line {
    all: VecDeque<Waiter>,
    served: usize,
    last: u64,
}

struct Waiter {
    ticket: u64,
    place: Option<Place>,
    wake: Option<Wake>,
}

impl Line {
    fn index(&self, ticket: u64) -> Option<usize> {
        self.all.binary_search_by_key(&ticket, |waiter| waiter.ticket).ok()
    }

    fn remove(&mut self, ticket: u64) -> Option<Waiter> {
        let waiter = self.all.remove(self.index(ticket)?)?;
        self.served -= usize::from(waiter.place.is_some());
        Some(waiter)
    }
}

impl Queue {
    pub(super) fn is_awaited(&self) -> bool {
        self.waiting.load(SeqCst) != 0
    }

    /// Returns whether who has this ticket was handed a place, if it didn't leave.
    pub(super) fn is_served(&self, ticket: u64) -> bool {
        self.ahead(ticket) == 0
    }

    /// Returns how many tickets come up to this one before it is served, also of those that left.
    pub(super) fn ahead(&self, ticket: u64) -> u64 {
        ticket.saturating_sub(self.served.load(SeqCst))
    }

    pub(super) fn wake_all(&self) {
        let mut after = 0;
        loop {
            let mut line = lock(&self.line);
            let index = line.all.partition_point(|waiter| waiter.ticket <= after);
            let Some(waiter) = line.all.get_mut(index) else { return };
            let wake = waiter.wake.take();
            after = waiter.ticket;
            drop(line);
            wake.into_iter().for_each(Wake::wake);
        }
    }
}

impl Places {
    /// Comes last, and returns the ticket. The first one looks for a place. `None` if memory is refused.
    pub(super) fn enter(&self, wake: Wake) -> Option<u64> {
        let mut line = lock(&self.queue.line);
        line.all.try_reserve(1).ok()?;
        line.last += 1;
        let (ticket, place, wake) = (line.last, None, Some(wake));
        line.all.push_back(Waiter { ticket, place, wake });
        self.queue.waiting.fetch_add(1, SeqCst);
        self.signs().enter();
        let is_first = line.served + 1 == line.all.len();
        let own = is_first.then(|| self.hand_first(&mut line));
        drop((line, own)); // what would wake it is dropped after the lock
        Some(ticket)
    }

    /// Hands a place to the first one that has none, and wakes it, if a place is free.
    pub(super) fn hand(&self) {
        let wake = self.hand_first(&mut lock(&self.queue.line));
        wake.into_iter().for_each(Wake::wake);
    }

    /// Hands a place as `hand` does, and returns what wakes who has it.
    fn hand_first(&self, line: &mut Line) -> Option<Wake> {
        let first = line.all.get_mut(line.served)?;
        first.place = Some(self.any_later()?.ok()?);
        self.count_off();
        self.queue.served.store(first.ticket, SeqCst);
        line.served += 1;
        first.wake.take()
    }

    fn count_off(&self) {
        self.queue.waiting.fetch_sub(1, SeqCst);
        self.signs().leave();
    }

    /// Takes the place that was handed to this ticket, or leaves a closed pool, or is woken so later.
    pub(super) fn take(&self, ticket: u64, wake: Option<Wake>) -> Any {
        let mut line = lock(&self.queue.line);
        if self.queue.is_served(ticket) {
            return line.remove(ticket)?.place.map(Ok);
        }
        if self.signs().load().is_closed() {
            let waiter = line.remove(ticket);
            self.count_off();
            drop((line, waiter));
            return Some(Err(Closed));
        }
        let index = line.index(ticket)?;
        let before = wake.and_then(|wake| line.all[index].wake.replace(wake));
        drop((line, before)); // what woke it before is dropped after the lock
        None
    }

    /// Leaves the queue. Returns the place that was handed to this ticket.
    pub(super) fn leave(&self, ticket: u64) -> Option<Place> {
        let mut line = lock(&self.queue.line);
        let waiter = line.remove(ticket)?;
        if waiter.place.is_none() {
            self.count_off();
        }
        drop(line); // before what would wake it
        waiter.place
    }
}
