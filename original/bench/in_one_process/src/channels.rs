//! The channels by which items go to other threads.
use crossbeam_queue::ArrayQueue;
use std::iter::repeat_with;
use std::sync::{mpsc, Arc};
use std::thread;

/// A kind of channel from some senders to one receiver.
pub trait Kind {
    type Sender<T: Send>: Send;
    type Receiver<T: Send>: Iterator<Item = T> + Send;

    /// Creates a channel with room for some items, and an end for each sender.
    fn channel<T: Send>(senders: usize, room: usize) -> (Vec<Self::Sender<T>>, Self::Receiver<T>);
    fn send<T: Send>(sender: &Self::Sender<T>, item: T);
}

/// The standard library's, whose threads sleep while it is full or empty.
pub struct Sleeping;

impl Kind for Sleeping {
    type Sender<T: Send> = mpsc::SyncSender<T>;
    type Receiver<T: Send> = mpsc::IntoIter<T>;

    fn channel<T: Send>(
        senders: usize,
        room: usize,
    ) -> (Vec<mpsc::SyncSender<T>>, mpsc::IntoIter<T>) {
        let (sender, receiver) = mpsc::sync_channel(room);
        (vec![sender; senders], receiver.into_iter())
    }

    fn send<T: Send>(sender: &mpsc::SyncSender<T>, item: T) {
        sender.send(item).expect("somebody reads");
    }
}

/// A queue for each sender, from which the receiver takes in turn. Threads let others run while it
/// is full or empty, and look again. So a pool's time isn't lost in that of waking threads, or of
/// senders that meet.
pub struct Yielding;

type Queue<T> = Arc<ArrayQueue<T>>;

impl Kind for Yielding {
    type Sender<T: Send> = Queue<T>;
    type Receiver<T: Send> = Received<T>;

    fn channel<T: Send>(senders: usize, room: usize) -> (Vec<Queue<T>>, Received<T>) {
        let queue = || Arc::new(ArrayQueue::new(room / senders));
        let queues: Vec<_> = repeat_with(queue).take(senders).collect();
        (queues.clone(), Received { queues, next: 0 })
    }

    fn send<T: Send>(queue: &Queue<T>, mut item: T) {
        while let Err(back) = queue.push(item) {
            item = back;
            thread::yield_now();
        }
    }
}

/// What comes out of some queues, until all senders have ended and they are empty.
pub struct Received<T> {
    queues: Vec<Queue<T>>,
    next: usize,
}

impl<T> Iterator for Received<T> {
    type Item = T;

    fn next(&mut self) -> Option<T> {
        loop {
            for _ in 0..self.queues.len() {
                self.next = self.next.checked_sub(1).unwrap_or(self.queues.len() - 1);
                if let Some(item) = self.queues[self.next].pop() {
                    return Some(item);
                }
            }
            // A queue without a sender stays until it was found empty once more.
            let ended = |queue: &mut Queue<T>| Arc::get_mut(queue).is_some();
            if self.queues.iter_mut().all(ended) {
                return self.queues.iter().find_map(|queue| queue.pop());
            }
            thread::yield_now();
        }
    }
}
