//! How long a call of zopfli takes, and its memory: with the pool of lockfree-object-pool, with ours,
//! and with none.
use std::process::Command;
use std::time::Instant;
use std::{env, fs, thread};

/// How many bytes a call compresses.
const BYTES: usize = 1_000;
const CALLS: usize = 20;
const THREADS: usize = 4;

/// Compresses a text by a crate of zopfli.
type Compress = fn(&[u8]) -> Vec<u8>;

macro_rules! compress {
    ($zopfli:ident) => {
        |text| {
            let options = $zopfli::Options {
                iteration_count: 1.try_into().expect("it isn't 0"),
                ..Default::default()
            };
            let mut out = Vec::new();
            $zopfli::compress(options, $zopfli::Format::Deflate, text, &mut out)
                .expect("a vector takes all");
            out
        }
    };
}

const KINDS: [(&str, Compress); 3] = [
    ("as it is", compress!(theirs)),
    ("over our pool", compress!(ours)),
    ("with no pool", compress!(without)),
];

/// A text of words in an order by chance, the same each time.
fn text() -> Vec<u8> {
    const WORDS: [&str; 6] = ["pool ", "place ", "is ", "pulled ", "by ", "threads\n"];
    let mut chance = 88_172_645_463_325_252_u64;
    let word = || {
        chance ^= chance << 13;
        chance ^= chance >> 7;
        chance ^= chance << 17;
        WORDS[(chance % 6) as usize].bytes()
    };
    std::iter::repeat_with(word).flatten().take(BYTES).collect()
}

/// How many kilobytes of memory the process has.
fn memory() -> u64 {
    let status = fs::read_to_string("/proc/self/status").expect("this is Linux");
    let line = status.lines().find_map(|line| line.strip_prefix("VmRSS:"));
    let size = line.and_then(|line| line.split_whitespace().next());
    size.and_then(|size| size.parse().ok()).expect("a number")
}

/// The first call of a process: its microseconds, and what memory is more after it.
fn first_call(compress: Compress) -> String {
    let (text, before) = (text(), memory());
    let start = Instant::now();
    compress(&text);
    format!("{} {}", start.elapsed().as_micros(), memory() - before)
}

/// What a process of its own says of its first call by this kind.
fn first_call_elsewhere(kind: usize) -> [u64; 2] {
    let program = env::current_exe().expect("its name is known");
    let ran = Command::new(program).args(["first", &kind.to_string()]).output();
    let said = String::from_utf8(ran.expect("it runs").stdout).expect("it is a text");
    let mut numbers = said.split_whitespace().map(|word| word.parse().expect("a number"));
    [(); 2].map(|()| numbers.next().expect("two numbers"))
}

/// Microseconds of a later call, by so many threads at once.
fn later_call(compress: Compress, threads: usize) -> u64 {
    let text = text();
    let work = || (0..CALLS).for_each(|_| drop(compress(&text)));
    let start = Instant::now();
    thread::scope(|scope| (0..threads).for_each(|_| _ = scope.spawn(work)));
    start.elapsed().as_micros() as u64 / CALLS as u64
}

fn middle(mut all: Vec<u64>) -> u64 {
    all.sort_unstable();
    all[all.len() / 2]
}

fn main() {
    let words: Vec<String> = env::args().skip(1).collect();
    if let [_, kind] = &words[..] {
        let kind: usize = kind.parse().expect("a number");
        return println!("{}", first_call(KINDS[kind].1));
    }
    let rounds: usize = words[0].parse().expect("a number of rounds");
    let outputs = KINDS.map(|(_, compress)| compress(&text()));
    assert!(outputs.iter().all(|output| *output == outputs[0]), "another output");
    let mut measured = KINDS.map(|_| [const { Vec::new() }; 4]);
    for _ in 0..rounds {
        for (kind, (_, compress)) in KINDS.iter().enumerate() {
            let [time, memory] = first_call_elsewhere(kind);
            let [one, many] = [1, THREADS].map(|threads| later_call(*compress, threads));
            let all = measured[kind].iter_mut().zip([time, memory, one, many]);
            all.for_each(|(all, one)| all.push(one));
        }
    }
    println!("| zopfli | first call, us | kB more | later call, us | by {THREADS} threads |");
    for ((name, _), measured) in KINDS.iter().zip(measured) {
        let [time, memory, one, many] = measured.map(middle);
        println!("| {name} | {time} | {memory} | {one} | {many} |");
    }
}
