//! One run: some threads that take turns, what they hold, and the models of their pools.
use super::items::{self, Act, AnyPool, Event, Held, How, Item, Out, World};
use super::plain::{self, Kind, Model};
use super::Random;
use kundratu_pool::LazyPool;
use std::io::Write;
use std::panic::{catch_unwind, resume_unwind, AssertUnwindSafe};
use std::sync::mpsc::{channel, RecvTimeoutError, Sender};
use std::sync::Arc;
use std::thread::{Scope, ScopedJoinHandle};
use std::time::Duration;
use std::{mem, process};

type Order<'p> = Box<dyn FnOnce() + Send + 'p>;

/// A thread that does what it is told, and says when it is done.
struct Worker<'s, 'p> {
    name: usize,
    orders: Sender<Order<'p>>,
    thread: ScopedJoinHandle<'s, ()>,
}

impl<'s, 'p: 's> Worker<'s, 'p> {
    fn new(scope: &'s Scope<'s, 'p>, name: usize) -> Self {
        let (orders, told) = channel::<Order<'p>>();
        let thread = scope.spawn(move || told.into_iter().for_each(|order| order()));
        Worker { name, orders, thread }
    }

    /// Makes this call in the thread. One that doesn't end within 20 s ends the process.
    fn call<R: Send + 'p>(&self, call: impl FnOnce() -> R + Send + 'p) -> R {
        let (tell, done) = channel();
        let order = Box::new(move || drop(tell.send(call())));
        self.orders.send(order).expect("the thread runs");
        match done.recv_timeout(Duration::from_secs(20)) {
            Err(RecvTimeoutError::Timeout) => {
                let _ = writeln!(std::io::stderr(), "model: a call hangs");
                process::exit(101);
            }
            done => done.expect("the thread panics"),
        }
    }

    fn end(self) {
        drop(self.orders);
        self.thread.join().expect("it ends");
    }
}

/// Makes a call, and returns what it returns, or `None` if it panics.
pub fn tried<R>(call: impl FnOnce() -> R) -> Option<R> {
    catch_unwind(AssertUnwindSafe(call)).ok()
}

/// The pulls of a lazy pool.
const HOWS: [How; 7] = [How::Any, How::Try, How::Over, How::Long, How::Ever, How::Task, How::With];

/// What one run has. Guards are by their pools.
pub struct Run<'s, 'p, const N: usize> {
    scope: &'s Scope<'s, 'p>,
    pools: &'p [AnyPool<N>],
    worlds: &'p [Arc<World>],
    models: Vec<Model>,
    held: Vec<Vec<(usize, Held<'p, N>)>>,
    detached: Vec<(usize, Item<N>)>,
    workers: Vec<Worker<'s, 'p>>,
    begun: usize,
}

impl<'s, 'p: 's, const N: usize> Run<'s, 'p, N> {
    /// Begins with no thread and nothing held.
    pub fn new(
        scope: &'s Scope<'s, 'p>,
        pools: &'p [AnyPool<N>],
        worlds: &'p [Arc<World>],
        models: Vec<Model>,
    ) -> Self {
        Run {
            scope,
            pools,
            worlds,
            held: models.iter().map(|_| Vec::new()).collect(),
            models,
            detached: Vec::new(),
            workers: Vec::new(),
            begun: 0,
        }
    }

    pub fn begin(&mut self) {
        self.workers.push(Worker::new(self.scope, self.begun));
        self.begun += 1;
    }

    fn end(&mut self, worker: usize) {
        let worker = self.workers.swap_remove(worker);
        self.models.iter_mut().for_each(|model| model.end(worker.name));
        worker.end();
    }

    /// Pulls so many items of a pool, by a thread.
    fn pull(&mut self, worker: usize, at: usize, how: How, owned: bool, items: usize) {
        let (pool, world, worker) = (&self.pools[at], &self.worlds[at], &self.workers[worker]);
        let pulled = worker.call(move || {
            let pull = || match tried(|| pool.pull(how, owned, world)) {
                Some(Ok(mut held)) => (Out::Item(held.item().id), Some(held)),
                Some(Err(out)) => (out, None),
                None => (Out::Unwound, None),
            };
            let pulls = (0..items).map(|_| (pull(), world.take_events()));
            pulls.collect::<Vec<_>>()
        });
        for ((out, held), events) in pulled {
            let model = &mut self.models[at];
            model.replay(events, |model, events| model.pull(worker.name, how, out, events));
            if let Some(mut held) = held {
                let item = held.item();
                assert!(item.room.iter().all(|word| *word == item.id), "overwritten");
                assert_eq!(item.value, *self.models[at].value(item.id), "of item {}", item.id);
                self.held[at].push((item.id, held));
            }
        }
    }

    /// Returns these items, by a thread, or throws them away. If it unwinds, so by a panic.
    fn give_back(
        &mut self,
        worker: usize,
        at: usize,
        items: Vec<(usize, Held<'p, N>)>,
        unwinds: bool,
    ) {
        let (world, worker) = (&self.worlds[at], &self.workers[worker]);
        let given = worker.call(move || {
            let give_back = |(id, held): (usize, Held<'p, N>)| {
                let ended = tried(|| {
                    let _held = held;
                    if unwinds {
                        resume_unwind(Box::new(()));
                    }
                });
                (id, ended.is_none(), world.take_events())
            };
            items.into_iter().map(give_back).collect::<Vec<_>>()
        });
        for (id, unwound, events) in given {
            self.models[at].replay(events, |model, events| {
                let expected = model.give_back(worker.name, id, events) || unwinds;
                assert_eq!(unwound, expected, "unwinds, at the return of item {id}");
            });
        }
    }

    /// Makes a call of a lazy pool.
    fn lazy<R: Send + 'p>(
        &mut self,
        worker: usize,
        at: usize,
        call: impl FnOnce(&Arc<LazyPool<Item<N>, usize>>) -> R + Send + 'p,
        expected: impl FnOnce(&mut Model, usize, &mut plain::Events, Option<R>),
    ) {
        let (AnyPool::Lazy(pool), world) = (&self.pools[at], &self.worlds[at]) else {
            return;
        };
        let worker = &self.workers[worker];
        let (got, events) = worker.call(move || (tried(|| call(pool)), world.take_events()));
        self.models[at].replay(events, |model, events| expected(model, worker.name, events, got));
    }

    fn fill(&mut self, worker: usize, at: usize, items: usize) {
        let call = move |pool: &Arc<LazyPool<_, _>>| match pool.fill(items) {
            Ok(()) => Out::Done,
            Err(error) => items::out(error),
        };
        self.lazy(worker, at, call, |model, name, events, got| {
            let expected = model.fill(name, items, events);
            assert_eq!(got.unwrap_or(Out::Unwound), expected);
        });
    }

    fn clear(&mut self, worker: usize, at: usize, closes: bool) {
        let call = move |pool: &Arc<LazyPool<_, _>>| match closes {
            true => pool.close(),
            false => pool.clear(),
        };
        self.lazy(worker, at, call, |model, name, events, got| {
            model.closed |= closes;
            assert_eq!(got.is_none(), model.clear(name, events), "unwinds");
        });
    }

    /// Throws an item of a lazy pool away, or takes it out.
    fn part(&mut self, worker: usize, at: usize, index: usize, detaches: bool) {
        let (id, held) = self.held[at].swap_remove(index);
        let mut item = None;
        let call = move |_: &Arc<LazyPool<_, _>>| held.part(detaches);
        self.lazy(worker, at, call, |model, name, events, got| match got {
            Some(Some(detached)) => {
                assert_eq!(detached.id, id);
                model.forget(id);
                item = Some(detached);
            }
            got => assert_eq!(got.is_none(), model.dropped(name, id, events), "unwinds"),
        });
        self.detached.extend(item.map(|item| (at, item)));
    }

    pub fn command(&mut self, mut random: Random) {
        let random = &mut random;
        let (worker, at) = (random.below(self.workers.len()), random.below(self.pools.len()));
        let mut acts = [Act::Keeps; 4];
        if random.one_in(4) {
            acts[random.below(4)] = [Act::Rejects, Act::Panics, Act::Calls][random.below(3)];
        }
        self.worlds[at].set_acts(acts);
        self.models[at].acts = acts;
        let some = [1, 1, 2, 9, 40, 70, 300, 1_300][random.below(8)];
        let is_lazy = matches!(self.models[at].kind, Kind::Lazy);
        let count = self.held[at].len();
        match random.below(if is_lazy { 18 } else { 12 }) {
            0..=4 => {
                let mut how = How::Any;
                if is_lazy {
                    how = HOWS[random.below(HOWS.len())];
                }
                let left = self.models[at].limit - count - self.models[at].lost;
                let waits = !matches!(how, How::Any | How::Try | How::Over);
                let most =
                    if waits && !self.models[at].closed { left } else { left.saturating_add(2) };
                self.pull(worker, at, how, random.one_in(2), some.min(most));
            }
            5..=8 => {
                let from = random.below(count + 1);
                let to = count.min(from + some);
                let items = self.held[at].drain(from..to).collect();
                let unwinds = random.one_in(8) && !acts.contains(&Act::Panics); // or it aborts
                self.give_back(worker, at, items, unwinds);
            }
            9 if count > 0 => {
                let (id, held) = &mut self.held[at][random.below(count)];
                held.item().value = some;
                *self.models[at].value(*id) = some;
            }
            10 if self.workers.len() > 1 && random.one_in(3) => {
                let others = if random.one_in(4) { self.workers.len() - 1 } else { 1 };
                (0..others).for_each(|_| self.end(0));
            }
            11 if self.workers.len() < 12 => self.begin(),
            12 => self.fill(worker, at, some),
            13 => {
                let closes = random.one_in(10);
                if closes && random.one_in(2) {
                    acts = [Act::Keeps; 4];
                    acts[items::DROP] = Act::Calls;
                    self.worlds[at].set_acts(acts);
                    self.models[at].acts = acts;
                }
                self.clear(worker, at, closes);
            }
            14 | 15 if count > 0 => self.part(worker, at, random.below(count), random.one_in(2)),
            16 => {
                if let Some((of, item)) = self.detached.pop() {
                    self.worlds[of].set_acts([Act::Keeps; 4]);
                    let id = item.id;
                    drop(item);
                    assert_eq!(self.worlds[of].take_events(), [Event::Dropped(id)]);
                }
            }
            _ => {}
        }
        self.worlds[at].set_acts([Act::Keeps; 4]);
        self.models[at].acts = [Act::Keeps; 4];
        self.look(at);
    }

    /// Compares what can be asked.
    fn look(&self, at: usize) {
        let model = &self.models[at];
        match &self.pools[at] {
            AnyPool::Lazy(pool) => {
                let status = pool.status();
                let seen = [status.items, status.made, status.in_use, status.waiting];
                assert_eq!(seen, [model.limit, model.made(), self.held[at].len(), 0]);
                assert_eq!(pool.is_closed(), model.closed);
            }
            AnyPool::Fixed(pool) => {
                let status = pool.status();
                let seen = [pool.items(), status.items, status.made, status.in_use];
                let in_use = self.held[at].len() + model.lost;
                assert_eq!(seen, [model.limit, model.limit, model.limit, in_use]);
            }
            AnyPool::Linear(pool) => {
                let status = pool.status();
                let in_use = self.held[at].len() + model.lost;
                assert_eq!([status.made, status.in_use], [model.made(), in_use]);
                assert!(status.made <= status.items);
            }
            _ => {}
        }
    }

    /// All items go back, all threads but one end, and that one pulls all that there are.
    pub fn finish(mut self) -> Vec<Vec<usize>> {
        (0..self.pools.len()).for_each(|at| self.give_back_all(at % self.workers.len(), at));
        (1..self.workers.len()).for_each(|_| self.end(0));
        for at in 0..self.pools.len() {
            let all = self.models[at].free + 1;
            self.pull(0, at, How::Try, true, all);
            self.look(at);
            self.give_back_all(0, at);
        }
        self.end(0);
        self.detached.clear();
        self.worlds.iter().for_each(|world| drop(world.take_events()));
        self.models.iter().map(Model::ids).collect()
    }

    fn give_back_all(&mut self, worker: usize, at: usize) {
        let items = mem::take(&mut self.held[at]);
        self.give_back(worker, at, items, false);
    }
}
