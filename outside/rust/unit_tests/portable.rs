//! The calls in Rust answer as the proved ones: random calls of some handles, of pools of many
//! sizes, are refused or not alike, and have the same places.
use crate::library::calls::{self, PAGE};

#[path = "../src/library/portable.rs"]
mod portable;

const HANDLES: usize = 4;
const CALLS: usize = 300_000;
const SIZES: [usize; 7] = [1, 2, 31, 32, 33, 70, 600];

/// Numbers that are the same in each run.
struct Numbers(u64);

impl Numbers {
    fn below(&mut self, limit: usize) -> usize {
        self.0 ^= self.0 << 13;
        self.0 ^= self.0 >> 7;
        self.0 ^= self.0 << 17;
        (self.0 >> 33) as usize % limit
    }
}

/// A handle of both libraries, and which pool it is of.
struct Both {
    proved: calls::Handle,
    portable: portable::Handle,
    pool: usize,
}

/// All handles, the places that are held with their pools, and how many pulls found a place or none.
#[derive(Default)]
struct Compared {
    handles: Vec<Both>,
    places: Vec<(usize, usize)>,
    pools: usize,
    pulls: [usize; 2],
}

impl Compared {
    fn open(&mut self, size: usize) {
        self.pools += 1;
        let [proved, portable] = ["the proved one", "the one in Rust"];
        self.handles.push(Both {
            proved: calls::Handle::new(size).expect(proved),
            portable: portable::Handle::new(size).expect(portable),
            pool: self.pools,
        });
    }

    fn share(&mut self, from: usize) {
        let from = &mut self.handles[from];
        let (proved, portable) = (from.proved.share(), from.portable.share());
        let both = Both {
            proved: proved.expect("there is memory"),
            portable: portable.expect("there is memory"),
            pool: from.pool,
        };
        self.handles.push(both);
    }

    fn pull(&mut self, at: usize, page: usize) {
        let both = &mut self.handles[at];
        let place = both.proved.pull(page);
        assert_eq!(place, both.portable.pull(page));
        self.pulls[usize::from(place.is_none())] += 1;
        self.places.extend(place.map(|place| (both.pool, place)));
    }

    /// Returns some place of the handle's pool, if one is held.
    fn give_back(&mut self, at: usize, chosen: usize) {
        let both = &mut self.handles[at];
        let of_pool = |place: &usize| self.places[*place].0 == both.pool;
        let found: Vec<_> = (0..self.places.len()).filter(of_pool).collect();
        if let Some(&held) = found.get(chosen % found.len().max(1)) {
            let (_, place) = self.places.swap_remove(held);
            #[allow(unused_unsafe)] // the call in Rust is safe
            // SAFETY: the place is out of the handle's pool.
            unsafe {
                both.proved.give_back(place)
            };
            both.portable.give_back(place);
        }
    }

    fn close(&mut self, at: usize) {
        self.handles.swap_remove(at);
        let is_left = |pool| self.handles.iter().any(|both| both.pool == pool);
        self.places.retain(|(pool, _)| is_left(*pool));
    }
}

#[test]
fn the_calls_in_rust_answer_as_the_proved_ones() {
    let mut numbers = Numbers(0x9e37_79b9_7f4a_7c15);
    let mut compared = Compared::default();
    for _ in 0..CALLS {
        let handles = compared.handles.len();
        let (at, page) = (numbers.below(handles.max(1)), numbers.below(40));
        match numbers.below(64) {
            0 if handles < HANDLES => compared.open(SIZES[numbers.below(SIZES.len())]),
            _ if handles == 0 => {}
            1 if handles < HANDLES => compared.share(at),
            2 if numbers.below(8) == 0 => compared.close(at),
            3..=28 => compared.give_back(at, page),
            _ => compared.pull(at, page),
        }
    }
    assert!(compared.pulls.iter().all(|pulls| *pulls > 10_000));
}

/// What comes back twice isn't out. The calls in Rust end the call.
#[test]
#[should_panic = "place 0 is free, and was returned"]
fn a_place_that_comes_back_twice_is_told() {
    let mut handle = portable::Handle::new(1).expect("there is memory");
    handle.pull(0);
    handle.give_back(0);
    handle.give_back(0);
}
