//! Connections to one SQLite file: four of them for sixteen threads, of which one writes. The same
//! work by kundratu-pool and by r2d2, by turns. Then a transaction that is broken off.
use kundratu_pool::LazyPool;
use rusqlite::Connection;
use std::error::Error;
use std::panic::{self, catch_unwind, AssertUnwindSafe};
use std::path::{Path, PathBuf};
use std::sync::atomic::{AtomicBool, AtomicUsize, Ordering::SeqCst};
use std::sync::{Barrier, Mutex};
use std::time::{Duration, Instant};
use std::{env, fs, thread};

type Failed = Box<dyn Error>;

const CONNECTIONS: usize = 4;
const READERS: usize = 15;
const READS: usize = 10_000;
const ROWS: usize = 10_000;
const LIMIT: Duration = Duration::from_secs(30);

/// A pool of connections. Only the wait for one is measured.
trait Pool: Sync {
    fn with<A>(&self, waits: &mut Vec<Duration>, call: impl FnOnce(&Connection) -> A) -> A;
}

fn open(path: &Path) -> rusqlite::Result<Connection> {
    let connection = Connection::open(path)?;
    connection.busy_timeout(Duration::from_millis(200))?;
    connection.execute_batch("PRAGMA synchronous = OFF")?;
    Ok(connection)
}

/// Rolls back what was broken off. Returns whether the connection can be used on.
fn is_clean(connection: &Connection) -> bool {
    connection.is_autocommit() || connection.execute_batch("ROLLBACK").is_ok()
}

struct Ours(LazyPool<Connection, rusqlite::Error>);

impl Ours {
    fn new(path: PathBuf) -> Result<Ours, Failed> {
        let pool = LazyPool::new(CONNECTIONS, move || open(&path), |used| is_clean(used))?;
        Ok(Ours(pool.with_check(|kept| kept.execute_batch("").is_ok())))
    }
}

impl Pool for Ours {
    fn with<A>(&self, waits: &mut Vec<Duration>, call: impl FnOnce(&Connection) -> A) -> A {
        let begun = Instant::now();
        let connection = self.0.pull_timeout(LIMIT).expect("a connection in time");
        waits.push(begun.elapsed());
        call(&connection)
    }
}

/// A manager as crate r2d2_sqlite has it, which Debian hasn't: a connection is never broken. Or one
/// is broken within a transaction.
struct Manager {
    path: PathBuf,
    sees_transactions: bool,
}

impl r2d2::ManageConnection for Manager {
    type Connection = Connection;
    type Error = rusqlite::Error;

    fn connect(&self) -> rusqlite::Result<Connection> {
        open(&self.path)
    }

    fn is_valid(&self, kept: &mut Connection) -> rusqlite::Result<()> {
        kept.execute_batch("")
    }

    fn has_broken(&self, used: &mut Connection) -> bool {
        self.sees_transactions && !used.is_autocommit()
    }
}

struct R2d2(r2d2::Pool<Manager>);

impl R2d2 {
    fn new(path: PathBuf, sees_transactions: bool) -> Result<R2d2, Failed> {
        let manager = Manager {
            path,
            sees_transactions,
        };
        let builder = r2d2::Pool::builder().max_size(CONNECTIONS as u32);
        Ok(R2d2(builder.connection_timeout(LIMIT).build(manager)?))
    }
}

impl Pool for R2d2 {
    fn with<A>(&self, waits: &mut Vec<Duration>, call: impl FnOnce(&Connection) -> A) -> A {
        let begun = Instant::now();
        let connection = self.0.get().expect("a connection in time");
        waits.push(begun.elapsed());
        call(&connection)
    }
}

/// What one round took: its reads, its transactions, and the waits of all threads in their order.
struct Round {
    took: Duration,
    transactions: usize,
    waits: Vec<Duration>,
}

fn round(pool: &impl Pool) -> Round {
    let (ends, transactions) = (AtomicBool::new(false), AtomicUsize::new(0));
    let all_waits = Mutex::new(Vec::new());
    let note = |waits| {
        all_waits
            .lock()
            .expect("no panic")
            .extend::<Vec<Duration>>(waits)
    };
    let reads = |reader: usize| {
        let mut waits = Vec::with_capacity(READS);
        for read in 0..READS {
            let key = (read * 7919 + reader * 104_729) % ROWS;
            let value = pool.with(&mut waits, |connection| one_read(connection, key));
            assert!(value.expect("a row") >= 0);
        }
        note(waits);
    };
    let writes = || {
        let mut waits = Vec::new();
        while !ends.load(SeqCst) {
            pool.with(&mut waits, one_transaction)
                .expect("nobody else writes");
            transactions.fetch_add(1, SeqCst);
        }
        note(waits);
    };
    let begun = Instant::now();
    thread::scope(|scope| {
        let writer = scope.spawn(writes);
        let readers: Vec<_> = (0..READERS)
            .map(|r| scope.spawn(move || reads(r)))
            .collect();
        readers
            .into_iter()
            .for_each(|reader| reader.join().expect("it reads"));
        ends.store(true, SeqCst);
        writer.join().expect("it writes");
    });
    let took = begun.elapsed();
    let mut waits = all_waits.into_inner().expect("no panic");
    waits.sort_unstable();
    Round {
        took,
        transactions: transactions.into_inner(),
        waits,
    }
}

fn one_read(connection: &Connection, key: usize) -> rusqlite::Result<i64> {
    let mut query = connection.prepare_cached("SELECT value FROM kept WHERE key = ?")?;
    query.query_row([key], |row| row.get(0))
}

/// Moves one from a row to another.
fn one_transaction(connection: &Connection) -> rusqlite::Result<()> {
    connection.execute_batch("BEGIN IMMEDIATE")?;
    connection.execute("UPDATE kept SET value = value - 1 WHERE key = 1", [])?;
    connection.execute("UPDATE kept SET value = value + 1 WHERE key = 2", [])?;
    connection.execute_batch("COMMIT")
}

/// Breaks a transaction off in its middle, and tells what the next users of the connections find.
fn break_off(name: &str, pool: &impl Pool) {
    let broken_off = catch_unwind(AssertUnwindSafe(|| {
        pool.with(&mut Vec::new(), |connection| {
            let half = "BEGIN IMMEDIATE; UPDATE kept SET value = value - 1 WHERE key = 1";
            connection.execute_batch(half).expect("nobody else writes");
            panic!("an error of the program");
        })
    }));
    assert!(broken_off.is_err());
    let (within, sums, writes) = users(pool);
    println!("{name}: {within} of {CONNECTIONS} connections are within the transaction");
    println!("    they see the sums {sums:?}; {writes} of 8 further transactions are made");
}

/// Each of four threads has a connection: how many are within a transaction, which sums they see,
/// and how many of further transactions can be made.
fn users(pool: &impl Pool) -> (usize, Vec<i64>, usize) {
    let meet = Barrier::new(CONNECTIONS);
    let found = Mutex::new((0, Vec::new()));
    thread::scope(|scope| {
        for _ in 0..CONNECTIONS {
            scope.spawn(|| {
                pool.with(&mut Vec::new(), |connection| {
                    meet.wait();
                    let sum = connection
                        .query_row("SELECT sum(value) FROM kept", [], |row| row.get(0))
                        .expect("a sum");
                    let mut found = found.lock().expect("no panic");
                    found.0 += usize::from(!connection.is_autocommit());
                    found.1.push(sum);
                });
            });
        }
    });
    let writes = (0..8)
        .filter(|_| pool.with(&mut Vec::new(), one_transaction).is_ok())
        .count();
    let (within, mut sums) = found.into_inner().expect("no panic");
    sums.sort_unstable();
    (within, sums, writes)
}

fn tell(name: &str, mut rounds: Vec<Round>) {
    rounds.sort_by_key(|round| round.took);
    let middle = &rounds[rounds.len() / 2];
    let waited = |long| middle.waits.iter().filter(|wait| **wait > long).count();
    println!(
        "{name}: {} reads beside {} transactions",
        READERS * READS,
        middle.transactions
    );
    println!("    least {:?}, middle {:?}", rounds[0].took, middle.took);
    let [some, long] = [10, 10_000].map(|micros| waited(Duration::from_micros(micros)));
    let longest = middle.waits.last().copied().unwrap_or_default();
    println!("    {some} pulls waited 10 us and more, {long} 10 ms, the longest {longest:?}");
}

fn new_file(path: &Path) -> Result<(), Failed> {
    let connection = open(path)?;
    connection.execute_batch("PRAGMA journal_mode = WAL")?;
    connection.execute_batch("CREATE TABLE kept (key INTEGER PRIMARY KEY, value INTEGER)")?;
    let fill = "WITH RECURSIVE keys(key) AS (SELECT 0 UNION ALL SELECT key + 1 FROM keys WHERE key < ?1 - 1) \
                INSERT INTO kept SELECT key, 1000000 FROM keys";
    connection.execute(fill, [ROWS])?;
    Ok(())
}

fn main() -> Result<(), Failed> {
    let folder = PathBuf::from(env::args().nth(1).ok_or("usage: FOLDER [ROUNDS]")?);
    let rounds = env::args().nth(2).map_or(Ok(7), |rounds| rounds.parse())?;
    let [ours, theirs] = ["ours", "theirs"].map(|name| folder.join(format!("{name}.sqlite")));
    for path in [&ours, &theirs] {
        let _ = fs::remove_file(path);
        new_file(path)?;
    }
    let their_path = theirs.clone();
    let (ours, theirs) = (Ours::new(ours)?, R2d2::new(theirs, false)?);
    let (mut of_ours, mut of_theirs) = (Vec::new(), Vec::new());
    for _ in 0..rounds {
        of_ours.push(round(&ours));
        of_theirs.push(round(&theirs));
    }
    tell("kundratu-pool", of_ours);
    tell("r2d2", of_theirs);
    println!("A transaction is broken off by a panic:");
    panic::set_hook(Box::new(|_| ()));
    break_off("kundratu-pool, whose reset rolls back", &ours);
    break_off("r2d2, as r2d2_sqlite has it", &theirs);
    drop(theirs);
    break_off("r2d2, if has_broken looks", &R2d2::new(their_path, true)?);
    Ok(())
}
