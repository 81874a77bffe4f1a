//! One thread, one item at a time. With lockfree-object-pool 0.1.6 it is the same but for the next
//! line.
use kundratu_pool::LinearObjectPool;

fn main() {
    let pool = LinearObjectPool::<u32>::new(Default::default, |number| *number = 0);
    *pool.pull() = 5; // it is returned here, and reset
    println!("the item came back as {}", *pool.pull());
}
