//! Two threads on one pool of the Rust crate, each with one call. `ci/stopped` runs it, stops a
//! thread after an instruction of its call, and lets the other go on. It prints what
//! `crates/test_stopped` prints; an item's number is that of its value.
//!
//!     test_stopped [KIND FIRST SECOND ROUNDS]
use kundratu_pool::{Pool, Reusable};
use std::fmt::{self, Display, Formatter};
use std::{env, process, thread};

/// How many items a pool has, and which are free at first, as many as there have to be.
const ITEMS: u32 = 4;
const FREE: [u32; 4] = [1, 3, 0, 2];
/// What is added to an item's number where a thread writes its value.
const WRITTEN: u32 = 100;
const TURNS: u32 = 200;
/// The kinds, how many items are free but for those that threads hold before their calls, and
/// whether each thread pulled from the pool before.
const KINDS: [(&str, usize, bool); 3] = [
    ("pool", 2, true),
    ("pool_last", 1, true),
    ("pool_new", 2, false),
];

#[derive(Clone, Copy, PartialEq, Eq)]
enum Call {
    Pull,
    Return,
    Turn,
    Turns,
}

impl Call {
    fn named(name: &str) -> Option<Call> {
        match name {
            "pull" => Some(Call::Pull),
            "return" => Some(Call::Return),
            "turn" => Some(Call::Turn),
            "turns" => Some(Call::Turns),
            _ => None,
        }
    }

    fn held(self) -> usize {
        usize::from(matches!(self, Call::Return | Call::Turns))
    }
}

/// The value of an item, if there is one.
struct Shown(Option<u32>);

impl Display for Shown {
    fn fmt(&self, f: &mut Formatter<'_>) -> fmt::Result {
        match self.0 {
            Some(value) => write!(f, "{}:{value}", value % WRITTEN),
            None => f.write_str("none"),
        }
    }
}

/// What a thread tells: the item that it held before its call, and the one that it pulled.
struct Told {
    held: Shown,
    pulled: Shown,
}

impl Display for Told {
    fn fmt(&self, f: &mut Formatter<'_>) -> fmt::Result {
        write!(f, "held {} pulled {}", self.held, self.pulled)
    }
}

fn mark(item: &mut u32) -> u32 {
    *item = *item % WRITTEN + WRITTEN;
    *item
}

#[inline(never)]
fn called_pull(pool: &Pool<u32>) -> Option<Reusable<'_, u32>> {
    pool.pull()
}

#[inline(never)]
fn called_return(item: Reusable<'_, u32>) {
    drop(item);
}

#[inline(never)]
fn called_turn(pool: &Pool<u32>) -> Option<u32> {
    let mut item = pool.pull()?;
    let pulled = *item;
    mark(&mut item);
    Some(pulled)
}

#[inline(never)]
fn called_turns<'p>(pool: &'p Pool<u32>, item: Reusable<'p, u32>) {
    let mut held = Some(item);
    for _ in 0..TURNS {
        drop(held.take());
        held = pool.pull();
    }
}

fn make(pool: &Pool<u32>, has_pulled: bool, call: Call) -> Told {
    if has_pulled {
        drop(pool.pull());
    }
    let (mut held, mut pulled) = (None, None);
    match call {
        Call::Pull => pulled = called_pull(pool).map(|item| *item),
        Call::Turn => pulled = called_turn(pool),
        Call::Return | Call::Turns => {
            let mut item = pool.pull().expect("an item is free");
            held = Some(mark(&mut item));
            if call == Call::Return {
                called_return(item);
            } else {
                called_turns(pool, item);
            }
        }
    }
    Told {
        held: Shown(held),
        pulled: Shown(pulled),
    }
}

/// A pool whose items have their numbers for values.
fn new_pool(items: u32) -> Pool<u32> {
    let mut made = 0..items;
    Pool::new(items as usize, || made.next().expect("one an item"), |_| {}).expect("it is made")
}

fn round(free: &[u32], has_pulled: bool, first: Call, second: Call) {
    let pool = new_pool(ITEMS);
    let all: Vec<_> = (0..ITEMS)
        .map(|_| pool.pull().expect("it is free"))
        .collect();
    let held: Vec<_> = all
        .into_iter()
        .filter(|item| !free.contains(item))
        .collect();
    let (first, second) = thread::scope(|scope| {
        let thread = scope.spawn(|| make(&pool, has_pulled, first));
        let second = make(&pool, has_pulled, second);
        (thread.join().expect("it ends"), second)
    });
    let rest: Vec<_> = free.iter().filter_map(|_| pool.pull()).collect();
    print!("{first} {second} rest");
    for item in &rest {
        print!(" {}", Shown(Some(**item)));
    }
    println!();
    drop(held);
}

/// What the words ask for.
struct Task {
    free: usize,
    has_pulled: bool,
    first: Call,
    second: Call,
    rounds: u64,
}

fn read(words: &[String]) -> Option<Task> {
    let [kind, first, second, rounds] = words else {
        return None;
    };
    let (_, free, has_pulled) = *KINDS.iter().find(|(name, ..)| name == kind)?;
    let (first, second) = (Call::named(first)?, Call::named(second)?);
    Some(Task {
        free: free + first.held() + second.held(),
        has_pulled,
        first,
        second,
        rounds: rounds.parse().ok()?,
    })
}

fn main() {
    let words: Vec<String> = env::args().skip(1).collect();
    if words.is_empty() {
        KINDS.iter().for_each(|(name, ..)| println!("{name}"));
        return;
    }
    let Some(task) = read(&words) else {
        eprintln!("usage: test_stopped [KIND FIRST SECOND ROUNDS]");
        process::exit(2);
    };
    let free = &FREE[..task.free];
    let numbers: Vec<String> = free.iter().map(u32::to_string).collect();
    println!("free {}", numbers.join(" "));
    for _ in 0..task.rounds {
        round(free, task.has_pulled, task.first, task.second);
    }
}
