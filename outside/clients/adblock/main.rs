//! How long adblock takes to compare a request with 2,000 rules: with lifeguard's pool, with ours,
//! and with none. By one thread: an engine with lifeguard's pool can't be shared.
use std::env;
use std::hint::black_box;
use std::time::Instant;

const RULES: usize = 2_000;
const CALLS: usize = 10_000;

/// What glibc says of its heap.
#[repr(C)]
struct Info {
    before: [usize; 4],
    mapped: usize,
    unused: [usize; 2],
    used: usize,
    after: [usize; 2],
}

unsafe extern "C" {
    safe fn mallinfo2() -> Info;
}

fn used() -> usize {
    let info = mallinfo2();
    info.used + info.mapped
}

/// Makes an engine and checks a request once. Says how many bytes it has then, and what checks the
/// request again and tells how many nanoseconds that takes.
macro_rules! checks {
    ($adblock:ident, $rules:expr) => {{
        let before = used();
        let engine = $adblock::Engine::from_rules($rules, Default::default());
        let request = $adblock::request::Request::new(
            "https://static.shop17.example/assets/script.js?v=12",
            "https://news.example/",
            "script",
        )
        .expect("it is a request");
        let check = move || engine.check_network_request(black_box(&request)).matched;
        check();
        let bytes = used() - before;
        let measure = move || {
            let start = Instant::now();
            (0..CALLS).for_each(|_| _ = black_box(check()));
            start.elapsed().as_nanos() as usize / CALLS
        };
        (bytes, Box::new(measure) as Box<dyn Fn() -> usize>)
    }};
}

fn main() {
    let rounds: usize = env::args().nth(1).and_then(|word| word.parse().ok()).expect("a number of rounds");
    let rules: Vec<String> = (0..RULES).map(|at| format!("||ads{at}.example^$script,third-party")).collect();
    let kinds = [
        ("as it is", checks!(theirs, &rules)),
        ("over our pool", checks!(ours, &rules)),
        ("with no pool", checks!(without, &rules)),
    ];
    let mut times = [const { Vec::new() }; 3];
    for _ in 0..rounds {
        for (times, (_, (_, measure))) in times.iter_mut().zip(&kinds) {
            times.push(measure());
        }
    }
    println!("| adblock | a check, ns | bytes of an engine |");
    for (mut times, (name, (bytes, _))) in times.into_iter().zip(kinds) {
        times.sort_unstable();
        println!("| {name} | {} | {bytes} |", times[rounds / 2]);
    }
}
