//! Threads that share a pool, each with items of its own. With lockfree-object-pool 0.1.6 it is the
//! same but for the next line.
use kundratu_pool::LinearObjectPool;
use std::sync::Arc;
use std::thread;

fn main() {
    let pool = Arc::new(LinearObjectPool::<Vec<u8>>::new(Vec::new, Vec::clear));
    let threads: Vec<_> = (0..4_u8)
        .map(|number| {
            let pool = Arc::clone(&pool);
            thread::spawn(move || {
                let mut buffer = pool.pull_owned();
                buffer.extend([number; 100]);
                buffer
            })
        })
        .collect();
    for (number, thread) in threads.into_iter().enumerate() {
        let buffer = thread.join().expect("it ends");
        assert!(buffer.iter().all(|byte| usize::from(*byte) == number));
    }
    assert!(pool.pull().is_empty());
    println!("four threads filled a buffer each");
}
