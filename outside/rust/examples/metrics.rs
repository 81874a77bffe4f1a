//! Counts what happens in a pool of connections, as a program would wire it to its metrics.
use kundratu_pool::{Event, LazyPool};
use std::error::Error;
use std::sync::atomic::{AtomicUsize, Ordering::Relaxed};
use std::sync::Arc;
use std::thread;
use std::time::Duration;

/// Counters as those of a crate for metrics.
#[derive(Default)]
struct Metrics {
    pulled: AtomicUsize,
    made: AtomicUsize,
    failed: AtomicUsize,
    waited: AtomicUsize,
}

impl Metrics {
    fn count(&self, event: Event) {
        let counter = match event {
            Event::Pulled => &self.pulled,
            Event::Made => &self.made,
            Event::Failed => &self.failed,
            Event::Waits => &self.waited,
            _ => return, // a later version may tell more
        };
        counter.fetch_add(1, Relaxed);
    }
}

/// What stands for a connection here.
struct Connection;

fn connect() -> Result<Connection, &'static str> {
    thread::sleep(Duration::from_millis(1));
    Ok(Connection)
}

fn main() -> Result<(), Box<dyn Error>> {
    let metrics = Arc::new(Metrics::default());
    let counts = Arc::clone(&metrics);
    let pool = LazyPool::builder(4)
        .init(connect)
        .fair()
        .on_event(move |event| counts.count(event))
        .build()?;
    thread::scope(|scope| {
        for _ in 0..8 {
            scope.spawn(|| {
                for _ in 0..10 {
                    let _connection = pool.pull_wait().expect("none fails");
                    thread::sleep(Duration::from_micros(100));
                }
            });
        }
    });
    let status = pool.status();
    println!("{} were pulled, {} made", metrics.pulled.load(Relaxed), metrics.made.load(Relaxed));
    assert_eq!(metrics.pulled.load(Relaxed), 80);
    assert_eq!(metrics.made.load(Relaxed), status.made);
    assert_eq!((metrics.failed.load(Relaxed), status.in_use, status.waiting), (0, 0, 0));
    Ok(())
}
