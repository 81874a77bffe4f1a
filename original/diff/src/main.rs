//! Does the same random calls on the pools of this repository, by its program `test_original`, and on the original's,
//! and compares the answers.
mod call;
mod original;

use call::{Calls, Forgotten, Kind, Plan};
use original::{Counts, Pool, Replay, Tally};
use std::io::{self, BufRead, BufReader, BufWriter, Write};
use std::process::{Child, ChildStdin, Command, Stdio};
use std::sync::Arc;
use std::{env, thread};

/// An answer that the original doesn't give.
struct Difference {
    /// How many calls were done before.
    calls: usize,
    call: String,
    here: String,
    original: String,
}

/// What both gave, where nothing differed.
struct Same {
    counts: Counts,
    forgotten: Forgotten,
}

fn main() {
    let words: Vec<String> = env::args().skip(1).collect();
    let [program, seed, calls] = words.as_slice() else {
        panic!("usage: diff PROGRAM SEED CALLS");
    };
    let seed: u64 = seed.parse().expect("a seed");
    let calls: u64 = calls.parse().expect("a number of calls");
    let mut differs = false;
    for plan in plans(seed, calls) {
        differs |= !compare(program, plan);
    }
    if differs {
        std::process::exit(1);
    }
}

/// Each pool, with resets that keep and that clear, and with or without owners that are forgotten.
fn plans(seed: u64, calls: u64) -> Vec<Plan> {
    let mut plans = Vec::new();
    for kind in [Kind::Linear, Kind::Mutex, Kind::SpinLock, Kind::None] {
        for clears in [false, true] {
            for forgets_owned in [false, true] {
                let seed = seed.wrapping_add(plans.len() as u64);
                plans.push(Plan {
                    kind,
                    clears,
                    forgets_owned,
                    seed,
                    calls,
                });
            }
        }
    }
    plans
}

/// Does a plan on both sides, and prints what came of it. Whether nothing differed.
fn compare(program: &str, plan: Plan) -> bool {
    let reset = if plan.clears { "clear" } else { "keep" };
    let forgets = if plan.forgets_owned {
        "any"
    } else {
        "borrowed"
    };
    let (kind, calls) = (plan.kind, plan.calls);
    print!(
        "{kind}, {reset}, {forgets} items forgotten, seed {}: ",
        plan.seed
    );
    match replayed(program, plan, reset) {
        Ok(Same { counts, forgotten }) => {
            let Forgotten { borrowed, owned } = forgotten;
            println!("{calls} calls, no difference; {counts}, {borrowed} + {owned} forgotten");
            true
        }
        Err(difference) => {
            let Difference {
                calls,
                call,
                here,
                original,
            } = difference;
            println!("after {calls} calls, {call}\n  here:     {here}\n  original: {original}");
            false
        }
    }
}

fn replayed(program: &str, plan: Plan, reset: &str) -> Result<Same, Difference> {
    let mut child = Command::new(program)
        .args([&plan.kind.to_string(), reset])
        .stdin(Stdio::piped())
        .stdout(Stdio::piped())
        .spawn()
        .expect("the program starts");
    let input = child.stdin.take().expect("the program has an input");
    let writer = thread::spawn(move || send(input, plan));
    let result = answers_compared(&mut child, plan);
    if result.is_ok() {
        writer.join().unwrap().expect("the program reads its input");
        assert!(child.wait().expect("the program ends").success());
    } else {
        child.kill().expect("the program is stopped");
        child.wait().expect("the program ends");
    }
    result
}

/// Writes the calls to the program.
fn send(input: ChildStdin, plan: Plan) -> io::Result<()> {
    let mut input = BufWriter::new(input);
    for call in Calls::new(plan) {
        writeln!(input, "{call}")?;
    }
    input.flush()
}

/// Does the calls on the original, and compares each answer with the program's.
fn answers_compared(child: &mut Child, plan: Plan) -> Result<Same, Difference> {
    let output = child.stdout.take().expect("the program has an output");
    let mut lines = BufReader::new(output).lines();
    let mut compared = |calls, call: String, original: String| {
        let here = lines
            .next()
            .transpose()
            .expect("the program answers")
            .unwrap_or_default();
        if here == original {
            Ok(())
        } else {
            Err(Difference {
                calls,
                call,
                here,
                original,
            })
        }
    };
    let tally = Arc::new(Tally::default());
    let pool = Pool::new(plan, &tally);
    let mut replay = Replay::new(&pool, &tally);
    let mut calls = Calls::new(plan);
    for (number, call) in calls.by_ref().enumerate() {
        compared(number, call.to_string(), replay.answer(call))?;
    }
    let forgotten = calls.forgotten();
    drop(replay);
    drop(pool);
    let mut counts = tally.now();
    if plan.kind == Kind::Linear && forgotten.owned == 0 {
        // The original's page drops its items with itself, those that were forgotten too. Here a forgotten item is never dropped.
        counts.dropped -= forgotten.borrowed;
    }
    compared(
        plan.calls as usize,
        "the end".to_string(),
        format!("end: {counts}"),
    )?;
    Ok(Same { counts, forgotten })
}
