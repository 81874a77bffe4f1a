//! The calls whose instructions are counted, and what shape their cost has.
use crate::counting::MARK;
use kundratu_pool::{LazyPool, LinearObjectPool, Pool, Status};
use std::ffi::c_int;
use std::hint::black_box;
use std::mem;

/// The word by which this program makes the calls.
pub const WORD: &str = "calls";

/// The two sizes.
const SIZES: [usize; 2] = [512, 64 * 512];
/// How often a call is counted. The middle one tells.
const TIMES: usize = 3;

/// How the cost grows from the first size to the other one.
#[derive(Clone, Copy)]
enum Shape {
    /// It doesn't.
    Flat,
    /// As the parts of a pool that grows, of which there are 7 and 25.
    Parts,
    /// As the words of 32 places each, by so many instructions a word at most.
    Words(u64),
}

impl Shape {
    fn allows(self, [small, great]: [u64; 2]) -> bool {
        match self {
            Shape::Flat => great <= small + small / 4 + 40,
            Shape::Parts => great <= small * 4,
            Shape::Words(each) => great <= small + each * SIZES[1] as u64 / 32,
        }
    }
}

/// Each call, in the order in which they are made at a size.
const CALLS: [(&str, Shape); 18] = [
    ("nothing", Shape::Flat),
    ("Pool: a first pull", Shape::Flat),
    ("Pool: a return", Shape::Flat),
    ("Pool: a pull again", Shape::Flat),
    ("Pool: a refusal after a return", Shape::Words(100)),
    ("Pool: a refusal", Shape::Flat),
    ("Pool: a count", Shape::Flat),
    ("LazyPool: a first pull", Shape::Flat),
    ("LazyPool: a return", Shape::Flat),
    ("LazyPool: a pull again", Shape::Flat),
    ("LazyPool: a refusal after a return", Shape::Words(100)),
    ("LazyPool: a refusal", Shape::Flat),
    ("LazyPool: a count", Shape::Flat),
    ("LazyPool: a pull where none is made", Shape::Flat),
    ("LinearObjectPool: a first pull", Shape::Flat),
    ("LinearObjectPool: a return", Shape::Flat),
    ("LinearObjectPool: a pull again", Shape::Flat),
    ("LinearObjectPool: a count", Shape::Parts),
];

unsafe extern "C" {
    safe fn raise(signal: c_int) -> c_int;
}

/// Makes a call so often, with marks around each.
fn call(mut call: impl FnMut()) {
    for _ in 0..TIMES {
        raise(MARK);
        call();
        raise(MARK);
    }
}

fn no_status() -> Status {
    Pool::new(1, || (), |()| ()).expect("there is memory").status()
}

/// Makes the calls of a pool whose pulls may fail: first pulls from the middle on, returns of most,
/// and pulls again; refusals after one was returned; refusals after these, and counts.
fn make_calls<G>(items: usize, pull: impl Fn() -> Option<G>, status: impl Fn() -> Status) {
    let mut held = Vec::with_capacity(items);
    let mut last = no_status();
    held.extend((0..items / 2).map(|_| pull()));
    call(|| held.push(pull()));
    held.extend((held.len()..items).map(|_| pull()));
    assert!(held.iter().all(Option::is_some), "all are free at first");
    call(|| drop(held.pop()));
    held.truncate(items / 4);
    call(|| held.push(pull()));
    held.extend((held.len()..items).map(|_| pull()));
    for _ in 0..TIMES {
        held.truncate(items - 2); // one of them is kept, the other one isn't
        held.extend([pull(), pull()]);
        raise(MARK);
        assert!(black_box(pull()).is_none());
        raise(MARK);
    }
    call(|| assert!(black_box(pull()).is_none()));
    call(|| last = status());
    assert_eq!((last.items, last.in_use), (items, items));
}

fn make_lazy(items: usize) -> LazyPool<u32, ()> {
    LazyPool::new(items, || Ok(0), |_| true).expect("there is memory")
}

/// Makes the calls of a pool whose pulls never fail.
fn make_growing_calls(items: usize) {
    let pool = LinearObjectPool::<u32>::new(|| 0, |number| *number = 0);
    let mut held = Vec::with_capacity(items * 2);
    let mut last = no_status();
    held.extend((0..items / 2).map(|_| pool.pull()));
    call(|| held.push(pool.pull()));
    held.extend((held.len()..items).map(|_| pool.pull()));
    call(|| drop(held.pop()));
    held.truncate(items / 4);
    held.extend((0..8).map(|_| pool.pull())); // those that the thread kept
    call(|| held.push(pool.pull()));
    held.extend((held.len()..items).map(|_| pool.pull()));
    call(|| last = pool.status());
    assert_eq!((last.made, last.in_use), (items, items));
}

/// Makes all calls at both sizes.
pub fn make_all() {
    for items in SIZES {
        call(|| ());
        let pool = Pool::new(items, || 0_u32, |number| *number = 0).expect("there is memory");
        make_calls(items, || pool.pull(), || pool.status());
        let lazy = make_lazy(items);
        make_calls(items, || lazy.pull().ok(), || lazy.status());
        let lazy = make_lazy(items);
        (0..items / 2).for_each(|_| mem::forget(lazy.pull()));
        call(|| assert!(black_box(lazy.try_pull()).is_none()));
        make_growing_calls(items);
        println!("{items}");
    }
}

/// Prints what was counted, and returns how many calls have another shape than they should.
pub fn judge(said: &str, counts: Vec<u64>) -> usize {
    assert_eq!(said.lines().count(), SIZES.len());
    assert_eq!(counts.len(), SIZES.len() * CALLS.len() * TIMES);
    let middle = |at: usize| {
        let mut times = counts[at * TIMES..][..TIMES].to_vec();
        times.sort_unstable();
        times[TIMES / 2]
    };
    let is_wrong = |(at, (name, shape)): (usize, &(&str, Shape))| {
        let both = [at, at + CALLS.len()].map(|at| middle(at).saturating_sub(middle(0)));
        let is_wrong = !shape.allows(both);
        let told = if is_wrong { " WRONG" } else { "" };
        println!("{name}: {} and {} instructions{told}", both[0], both[1]);
        is_wrong
    };
    CALLS.iter().enumerate().filter(|call| is_wrong(*call)).count()
}
