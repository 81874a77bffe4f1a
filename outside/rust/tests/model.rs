//! Random commands over all calls of all pools, against a plain model. Several threads take turns,
//! one command at a time, so the model is exact; each has its own slot and kept places. Which free
//! item comes is the pool's choice, and is checked. `MODEL_SEED` runs one seed, `MODEL_RUNS` so many.
use std::panic;
use std::sync::Arc;
use std::{env, thread};

#[path = "model/growing.rs"]
mod growing;
#[path = "model/items.rs"]
mod items;
#[path = "model/plain.rs"]
mod plain;
#[path = "model/run.rs"]
mod run;
use items::{AnyPool, Event, World};
use plain::{Kind, Model};
use run::{tried, Run};

/// A small generator: splitmix64.
struct Random(u64);

impl Random {
    fn below(&mut self, end: usize) -> usize {
        self.0 = self.0.wrapping_add(0x9e37_79b9_7f4a_7c15);
        let mut word = self.0;
        word = (word ^ word >> 30).wrapping_mul(0xbf58_476d_1ce4_e5b9);
        word = (word ^ word >> 27).wrapping_mul(0x94d0_49bb_1331_11eb);
        ((word ^ word >> 31) % end as u64) as usize
    }

    fn one_in(&mut self, of: usize) -> bool {
        self.below(of) == 0
    }
}

const SIZES: [usize; 14] = [1, 2, 2, 31, 32, 33, 63, 64, 65, 127, 129, 1_023, 1_024, 1_025];

fn run<const N: usize>(seed: u64, commands: &[u64]) {
    let mut random = Random(seed);
    let mut size = || SIZES[random.below(SIZES.len())];
    let kinds = [
        [Kind::Fixed; 3].as_slice(),
        &[Kind::Linear; 6],
        &[Kind::Lazy; 4],
        &[Kind::Mutex, Kind::Spin, Kind::None],
    ];
    let kinds = kinds.concat().into_iter().enumerate();
    let models: Vec<_> = kinds.map(|(at, kind)| Model::new(at, kind, size())).collect();
    let worlds: Vec<_> = models.iter().map(|_| Arc::new(World::default())).collect();
    let made = models.iter().zip(&worlds);
    let pools: Vec<_> = made.map(|(model, world)| AnyPool::new(model, world)).collect();
    let left: Vec<Vec<usize>> = thread::scope(|scope| {
        let mut run = Run::<N>::new(scope, &pools, &worlds, models);
        (0..3).for_each(|_| run.begin());
        commands.iter().for_each(|command| run.command(Random(*command)));
        run.finish()
    });
    drop(pools);
    for (world, left) in worlds.iter().zip(left) {
        let mut dropped = world.take_events();
        dropped.sort_by_key(|event| format!("{event:?}").len());
        let left: Vec<_> = left.into_iter().map(Event::Dropped).collect();
        assert_eq!(dropped.len(), left.len());
        assert!(left.iter().all(|event| dropped.contains(event)));
    }
}

/// Runs with items of 24, 48, 64 and 504 bytes.
fn run_sized(seed: u64, commands: &[u64]) {
    let runs = [run::<0>, run::<3>, run::<5>, run::<60>];
    runs[seed as usize % runs.len()](seed, commands)
}

/// Leaves out as many commands as it can, so that it still fails.
fn shrink(seed: u64, mut commands: Vec<u64>) -> Vec<u64> {
    let mut many = commands.len() / 2;
    while many > 0 {
        let mut from = 0;
        while from < commands.len() {
            let mut fewer = commands.clone();
            fewer.drain(from..commands.len().min(from + many));
            if tried(|| run_sized(seed, &fewer)).is_none() {
                commands = fewer;
            } else {
                from += many;
            }
        }
        many /= 2;
    }
    commands
}

#[test]
fn random_commands_do_what_the_model_does() {
    let number = |name, or| env::var(name).map_or(or, |number| number.parse().expect("a number"));
    let (seed, runs) = (number("MODEL_SEED", 1), number("MODEL_RUNS", 10));
    for seed in seed..seed + runs {
        let mut random = Random(seed);
        let commands: Vec<_> = (0..400).map(|_| random.below(usize::MAX) as u64).collect();
        if tried(|| run_sized(seed, &commands)).is_none() {
            panic::set_hook(Box::new(|_| ()));
            let fewer = shrink(seed, commands);
            drop(panic::take_hook());
            println!("seed {seed}, {} commands: {fewer:x?}", fewer.len());
            run_sized(seed, &fewer);
        }
    }
}
