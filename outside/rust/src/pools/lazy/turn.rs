//! A pull that waits in the queue of a lazy pool.
use super::held::{Got, Held};
use super::waiters::{left, Limit};
use super::{queue::Wake, Event, LazyPool, PullError};
use std::task::{Context, Poll};
use std::{future::Future, hint::spin_loop, pin::Pin, thread};

/// How often a thread looks whether a place was handed to it before it sleeps.
const LOOKS: usize = 100;
/// How often one of the next so many looks for the only place of a pool, and lets others run between.
const YIELDS: usize = 30;
const NEXT: u64 = 8;

/// A pull that waits for its turn. At its end it leaves the queue, and its place goes on to the next.
pub(super) struct Turn<'p, T, E> {
    pool: &'p LazyPool<T, E>,
    ticket: Option<u64>,
}

impl<'p, T, E> Turn<'p, T, E> {
    /// Creates a pull that hasn't looked for a place yet.
    pub(super) fn new(pool: &'p LazyPool<T, E>) -> Self {
        Turn { pool, ticket: None }
    }

    /// Comes last in the queue, if it isn't there. `None` if memory is refused.
    fn enter(&mut self, wake: impl FnOnce() -> Wake) -> Option<u64> {
        self.ticket = self.ticket.or_else(|| self.pool.places.enter(wake()));
        self.ticket
    }

    /// Returns the place that was handed to it, if one was. Else it is woken so from now on.
    fn take(&mut self, wake: Option<Wake>) -> Got<'p, T, E> {
        let any = self.pool.places.take(self.ticket?, wake)?;
        self.ticket = None;
        Held::of(self.pool, Some(any))
    }

    /// Waits for a place until the limit. `None` if there was none then.
    #[cold]
    pub(super) fn wait(mut self, limit: Limit) -> Got<'p, T, E> {
        loop {
            let is_last = left(limit).is_zero();
            match self.enter(|| Wake::Thread(thread::current())) {
                Some(ticket) if is_last || self.is_due_soon(ticket) => {
                    let got = self.take(None);
                    if got.is_some() || is_last {
                        return got;
                    }
                }
                Some(_) => thread::park_timeout(left(limit)),
                None if is_last => return None,
                None => thread::yield_now(), // there may be memory later
            }
        }
    }

    /// Looks for some time whether a place was handed to it.
    fn is_due_soon(&self, ticket: u64) -> bool {
        let places = &self.pool.places;
        let is_next = places.count() == 1 && places.queue.ahead(ticket) <= NEXT;
        let (looks, between) = match is_next {
            true => (YIELDS, thread::yield_now as fn()),
            false => (LOOKS, spin_loop as fn()),
        };
        (0..looks).any(|_| {
            between();
            places.queue.is_served(ticket) || self.pool.is_closed()
        })
    }
}

impl<'p, T, E> Future for Turn<'p, T, E> {
    type Output = Result<Held<'p, T, E>, PullError<E>>;

    fn poll(mut self: Pin<&mut Self>, context: &mut Context<'_>) -> Poll<Self::Output> {
        let wake = || Wake::Task(context.waker().clone());
        if self.ticket.is_none() {
            if let Some(got) = Held::any(self.pool) {
                return Poll::Ready(got);
            }
            self.pool.emit(Event::Waits);
            if self.enter(wake).is_none() {
                context.waker().wake_by_ref(); // there may be memory later
                return Poll::Pending;
            }
        }
        let wake = Some(wake());
        self.take(wake).map_or(Poll::Pending, Poll::Ready)
    }
}

impl<T, E> Drop for Turn<'_, T, E> {
    fn drop(&mut self) {
        let handed = self.ticket.and_then(|ticket| self.pool.places.leave(ticket));
        drop(Held::of(self.pool, handed.map(Ok)));
    }
}
