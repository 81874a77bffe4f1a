//! Eight threads share two connections to a server, which closes each after some answers.
use kundratu_pool::{LazyPool, PullError};
use std::error::Error;
use std::io::{self, BufRead, BufReader, Write};
use std::net::{TcpListener, TcpStream};
use std::sync::atomic::{AtomicUsize, Ordering::SeqCst};
use std::thread;
use std::time::Duration;

const LIMIT: Duration = Duration::from_secs(10);

/// Answers some lines of a connection, and closes it then.
fn serve(stream: io::Result<TcpStream>) -> io::Result<()> {
    let mut stream = stream?;
    for line in BufReader::new(stream.try_clone()?).lines().take(20) {
        stream.write_all(format!("{} bytes\n", line?.len()).as_bytes())?;
    }
    Ok(())
}

/// A connection, and whether it can be used on.
struct Connection(BufReader<TcpStream>, bool);

impl Connection {
    fn ask(&mut self, line: &str) -> io::Result<String> {
        self.1 = false; // until its answer is there
        self.0.get_mut().write_all(format!("{line}\n").as_bytes())?;
        let mut answer = String::new();
        self.0.read_line(&mut answer)?;
        self.1 = !answer.is_empty();
        Ok(answer)
    }
}

/// Asks by a pooled connection, and by another one if that was closed.
fn ask(pool: &LazyPool<Connection, io::Error>, line: &str) -> Result<String, PullError<io::Error>> {
    loop {
        match pool.pull_timeout(LIMIT)?.ask(line) {
            Ok(answer) if !answer.is_empty() => return Ok(answer),
            _ => {} // its reset rejects it
        }
    }
}

fn main() -> Result<(), Box<dyn Error>> {
    let listener = TcpListener::bind("127.0.0.1:0")?;
    let address = listener.local_addr()?;
    thread::spawn(move || {
        listener.incoming().for_each(|stream| drop(thread::spawn(|| serve(stream))))
    });

    let init = move || Ok(Connection(BufReader::new(TcpStream::connect(address)?), true));
    let pool = LazyPool::<_, io::Error>::new(2, init, |used| used.1)?;
    let answers = AtomicUsize::new(0);
    thread::scope(|scope| {
        for _ in 0..8 {
            scope.spawn(|| {
                for _ in 0..25 {
                    let answer = ask(&pool, "hello");
                    let is_right = answer.is_ok_and(|answer| answer == "5 bytes\n");
                    answers.fetch_add(usize::from(is_right), SeqCst);
                }
            });
        }
    });
    println!("{answers:?} answers by {} connections at most", pool.status().items);
    Ok(())
}
