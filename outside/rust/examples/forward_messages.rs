//! Messages that writers fill and readers read, whose buffers go back to their pool where they are
//! read. With lockfree-object-pool 0.1.6 it is the same but for the next line.
use kundratu_pool::{LinearObjectPool, LinearOwnedReusable};
use std::sync::{mpsc, Arc, Mutex};
use std::thread;

const MESSAGES: usize = 20_000;

type Message = LinearOwnedReusable<Vec<u8>>;

fn write(number: usize, pool: &Arc<LinearObjectPool<Vec<u8>>>, sender: &mpsc::SyncSender<Message>) {
    for message in 0..MESSAGES {
        let mut buffer = pool.pull_owned();
        assert!(buffer.is_empty(), "a message has something of an earlier one");
        buffer.extend(format!("message {message} of writer {number}").bytes());
        sender.send(buffer).expect("somebody reads");
    }
}

/// Answers how many messages came, and of how many bytes in all.
fn read(receiver: &Mutex<mpsc::Receiver<Message>>) -> (usize, usize) {
    let mut told = (0, 0);
    loop {
        let message = receiver.lock().expect("nobody panics").recv();
        let Ok(message) = message else {
            return told;
        };
        assert!(message.starts_with(b"message "));
        told = (told.0 + 1, told.1 + message.len());
    }
}

fn forward(writers: usize, readers: usize) -> (usize, usize) {
    let pool = Arc::new(LinearObjectPool::new(|| Vec::with_capacity(64), Vec::clear));
    let (sender, receiver) = mpsc::sync_channel(100);
    let receiver = Mutex::new(receiver);
    thread::scope(|scope| {
        for number in 0..writers {
            let (pool, sender) = (Arc::clone(&pool), sender.clone());
            scope.spawn(move || write(number, &pool, &sender));
        }
        drop(sender);
        let readers: Vec<_> = (0..readers).map(|_| scope.spawn(|| read(&receiver))).collect();
        let told = readers.into_iter().map(|reader| reader.join().expect("it ends"));
        told.fold((0, 0), |all, one| (all.0 + one.0, all.1 + one.1))
    })
}

fn main() {
    for (writers, readers) in [(1, 1), (1, 5), (5, 1), (5, 5)] {
        let (messages, bytes) = forward(writers, readers);
        assert_eq!(messages, writers * MESSAGES);
        println!("{writers} writers, {readers} readers: {messages} messages of {bytes} bytes");
    }
}
