//! The model of one pool.
use super::growing::Kept;
use super::items::{Act, Event, How, Out, CHECK, DROP, INIT, RESET};
use std::collections::{BTreeMap, HashMap};
use std::mem;

#[derive(Clone, Copy, PartialEq)]
pub enum Kind {
    Fixed,
    Linear,
    Lazy,
    Mutex,
    Spin,
    None,
}

pub type Events = std::iter::Peekable<std::vec::IntoIter<Event>>;

struct Thing {
    value: usize,
    /// Whether it is free, and who returned it.
    free: Option<usize>,
}

/// What a pool's items are, and who holds them.
pub struct Model {
    pub kind: Kind,
    pub limit: usize,
    pub checks: bool,
    pub is_fair: bool,
    pub closed: bool,
    pub acts: [Act; 4],
    /// How many are free, never come again, and are being made or dropped at their places.
    pub free: usize,
    pub lost: usize,
    busy: usize,
    things: BTreeMap<usize, Thing>,
    /// Of a stack: the free ones, the last one last.
    stack: Vec<usize>,
    /// Of a pool of a fixed number: which item each thread keeps, of those of which it is known, and
    /// how often each pulled.
    kept: HashMap<usize, Option<usize>>,
    pulls: HashMap<usize, usize>,
    /// Of a pool that grows: what each thread has that called it.
    growing: HashMap<usize, Kept>,
}

impl Model {
    /// Creates the model of one of the pools of a run, of which some check and some are fair.
    pub fn new(at: usize, kind: Kind, size: usize) -> Model {
        let is_limited = matches!(kind, Kind::Fixed | Kind::Lazy);
        let mut model = Model {
            kind,
            limit: if is_limited { size } else { usize::MAX },
            checks: at % 2 == 0,
            is_fair: at % 4 < 2,
            closed: false,
            acts: Default::default(),
            free: 0,
            lost: 0,
            busy: 0,
            things: BTreeMap::new(),
            stack: Vec::new(),
            kept: HashMap::new(),
            pulls: HashMap::new(),
            growing: HashMap::new(),
        };
        if kind == Kind::Fixed {
            model.free = size;
            let (value, free) = (0, Some(usize::MAX));
            model.things = (0..size).map(|id| (id, Thing { value, free })).collect();
        }
        model
    }

    pub fn made(&self) -> usize {
        self.things.len()
    }

    pub fn ids(&self) -> Vec<usize> {
        self.things.keys().copied().collect()
    }

    pub fn value(&mut self, id: usize) -> &mut usize {
        &mut self.things.get_mut(&id).expect("it is made").value
    }

    /// Follows what a call did, to its end.
    pub fn replay(&mut self, events: Vec<Event>, follow: impl FnOnce(&mut Model, &mut Events)) {
        let mut left = events.into_iter().peekable();
        follow(self, &mut left);
        assert_eq!(left.next(), None, "nothing more is done");
    }

    /// A thread ends. What it kept in a slot may come to who has that next.
    pub fn end(&mut self, thread: usize) {
        self.kept.remove(&thread);
        self.pulls.remove(&thread);
        self.growing.remove(&thread);
    }

    /// Follows a closure of an item. Returns what it does.
    fn call(&mut self, thread: usize, of: usize, event: Event, events: &mut Events) -> Act {
        assert_eq!(events.next(), Some(event));
        let act = mem::take(&mut self.acts[of]);
        if act == Act::Calls && events.next_if_eq(&Event::Pulls).is_some() {
            let got = |event: &Event| match event {
                Event::Got(out) => Some(*out),
                _ => None,
            };
            let out = events.clone().find_map(|event| got(&event)).expect("it gets something");
            self.pull(thread, How::Any, out, events);
            assert_eq!(events.next(), Some(Event::Got(out)));
            if let Out::Item(id) = out {
                assert!(!self.give_back(thread, id, events));
            }
        }
        act
    }

    /// Follows a pull that came to this.
    pub fn pull(&mut self, thread: usize, how: How, out: Out, events: &mut Events) {
        *self.pulls.entry(thread).or_default() += 1;
        let expected = match self.kind {
            Kind::Fixed if self.free == 0 => Out::Refused,
            Kind::Fixed => self.take_out(thread, out),
            Kind::Linear => self.pull_growing(thread, out, events),
            Kind::Mutex | Kind::Spin => match self.stack.pop() {
                Some(id) => self.take_out(thread, Out::Item(id)),
                None => self.init(thread, events),
            },
            Kind::None => self.init(thread, events),
            Kind::Lazy => self.pull_lazy(thread, how, out, events),
        };
        assert_eq!(out, expected, "of a pull");
        if matches!(self.kind, Kind::Fixed) {
            self.keeps_none(thread);
        }
    }

    /// After its second pull a thread is known to keep none. At its first one it may have no number
    /// yet, and passes by what the thread kept that had its number before.
    fn keeps_none(&mut self, thread: usize) {
        if self.pulls.get(&thread).is_some_and(|pulls| *pulls > 1) {
            self.kept.insert(thread, None);
        }
    }

    /// An item is made if nothing is free but what other threads keep, and else none is.
    fn pull_growing(&mut self, thread: usize, out: Out, events: &mut Events) -> Out {
        self.growing.entry(thread).or_default();
        let others = || self.growing.iter().filter(|(name, _)| **name != thread);
        let least: usize = others().map(|(_, kept)| kept.least()).sum();
        let most: usize = others().map(|(_, kept)| kept.most()).sum();
        let own = self.growing.get_mut(&thread).expect("it is there");
        if matches!(events.peek(), Some(Event::Init(_))) {
            let free = self.free;
            assert!(free <= most, "one is made, of {free} free ones others keep {most}");
            assert_eq!(own.least(), 0, "one is made, and the thread keeps some");
            return self.init(thread, events);
        }
        assert!(least < self.free, "others keep all that are free");
        if let Some(kept) = own.pull() {
            assert_eq!(out, Out::Item(kept), "of what the thread keeps, the last one");
        }
        self.take_out(thread, out)
    }

    fn pull_lazy(&mut self, thread: usize, how: How, out: Out, events: &mut Events) -> Out {
        if self.closed {
            return if matches!(how, How::Try) { Out::Refused } else { Out::Closed };
        }
        while self.free > 0 {
            let next = match events.peek() {
                Some(Event::Check(id)) if self.checks => Out::Item(*id),
                _ => out,
            };
            let Out::Item(id) = self.take_out(thread, next) else {
                unreachable!("it is an item");
            };
            let act = match self.checks {
                true => self.call(thread, CHECK, Event::Check(id), events),
                false => Act::Keeps,
            };
            match act {
                Act::Rejects => assert!(!self.dropped(thread, id, events)),
                Act::Panics => {
                    self.dropped(thread, id, events);
                    return Out::Unwound;
                }
                _ => return Out::Item(id),
            }
            match how {
                How::Try => {}
                How::Over => return Out::TimedOut,
                _ => return self.init(thread, events),
            }
        }
        self.keeps_none(thread);
        match how {
            How::Try => Out::Refused,
            How::Over => Out::TimedOut,
            _ if self.made() + self.busy < self.limit => self.init(thread, events),
            _ => Out::Refused,
        }
    }

    /// One of the free items is pulled: the one that the thread keeps, if that is known.
    fn take_out(&mut self, thread: usize, out: Out) -> Out {
        let Out::Item(id) = out else {
            panic!("{} are free, and a pull comes to {out:?}", self.free);
        };
        let thing = self.things.get_mut(&id).expect("it is made");
        assert!(thing.free.take().is_some(), "item {id} has two holders");
        self.free -= 1;
        if let Some(Some(kept)) = self.kept.get(&thread) {
            assert_eq!(*kept, id, "a thread keeps another item");
        }
        let keeps = self.kept.values_mut().filter(|kept| **kept == Some(id));
        keeps.for_each(|kept| *kept = None);
        if matches!(self.kind, Kind::Fixed | Kind::Lazy) {
            self.keeps_none(thread);
        }
        out
    }

    /// Makes an item, which is held.
    fn init(&mut self, thread: usize, events: &mut Events) -> Out {
        let Some(Event::Init(id)) = events.peek().copied() else {
            panic!("no item is made, but {:?}", events.peek());
        };
        self.busy += 1;
        let act = self.call(thread, INIT, Event::Init(id), events);
        self.busy -= 1;
        match act {
            Act::Panics => return Out::Unwound,
            Act::Rejects if self.kind == Kind::Lazy => return Out::Failed(id),
            Act::Rejects => return Out::Unwound,
            _ => {}
        }
        let (value, free) = (0, None);
        assert!(self.things.insert(id, Thing { value, free }).is_none());
        Out::Item(id)
    }

    /// Follows a return. Returns whether it unwinds.
    pub fn give_back(&mut self, thread: usize, id: usize, events: &mut Events) -> bool {
        if self.closed || self.kind == Kind::None {
            return self.dropped(thread, id, events);
        }
        *self.value(id) += 1;
        let act = self.call(thread, RESET, Event::Reset(id), events);
        match (act, self.kind) {
            (Act::Panics, Kind::Fixed | Kind::Linear) => self.lost += 1,
            (Act::Panics, _) | (Act::Rejects, Kind::Lazy) => {
                return self.dropped(thread, id, events) || act == Act::Panics
            }
            _ => self.set_free(thread, id),
        }
        act == Act::Panics
    }

    /// An item that isn't free is.
    fn set_free(&mut self, thread: usize, id: usize) {
        self.things.get_mut(&id).expect("it is made").free = Some(thread);
        self.free += 1;
        match self.kind {
            Kind::Mutex | Kind::Spin => self.stack.push(id),
            Kind::Linear => self.growing.entry(thread).or_default().give_back(id),
            _ => {}
        }
        // What a thread keeps is known since it pulled.
        if let Some(kept @ None) = self.kept.get_mut(&thread) {
            *kept = Some(id);
        }
        self.pulls.entry(thread).or_default();
    }

    /// An item that isn't free is dropped. Returns whether that unwinds.
    pub fn dropped(&mut self, thread: usize, id: usize, events: &mut Events) -> bool {
        assert!(self.things.remove(&id).is_some_and(|thing| thing.free.is_none()));
        self.busy += 1;
        let act = self.call(thread, DROP, Event::Dropped(id), events);
        self.busy -= 1;
        act == Act::Panics
    }

    pub fn forget(&mut self, id: usize) {
        self.things.remove(&id);
    }

    pub fn fill(&mut self, thread: usize, items: usize, events: &mut Events) -> Out {
        for _ in self.made()..items.min(self.limit) {
            match () {
                _ if self.closed => return Out::Closed,
                _ if self.made() + self.busy == self.limit => return Out::Done,
                _ => {}
            }
            match self.init(thread, events) {
                Out::Item(id) => self.set_free(thread, id),
                out => return out,
            }
        }
        Out::Done
    }

    /// Returns whether it unwinds.
    pub fn clear(&mut self, thread: usize, events: &mut Events) -> bool {
        for _ in 0..self.limit {
            let Some(Event::Dropped(id)) = events.peek().copied() else {
                break;
            };
            self.take_out(thread, Out::Item(id));
            if self.dropped(thread, id, events) {
                return true;
            }
        }
        assert_eq!(self.free, 0, "all are dropped");
        self.keeps_none(thread);
        false
    }
}
