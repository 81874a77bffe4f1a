//! Tasks that share the items of a lazy pool, by the executors of tokio and of futures: some give
//! up while they wait, and some initializers are async. None is lost, and no item has two holders.
use futures::executor::{block_on, ThreadPool};
use futures::future::{join_all, poll_fn, select, Either};
use futures::task::SpawnExt;
use kundratu_pool::{LazyOwnedReusable, LazyPool};
use std::env;
use std::error::Error;
use std::sync::Arc;
use std::task::Poll;
use std::time::{Duration, Instant};

const ITEMS: usize = 4;
const TURNS: usize = 10;
/// A wait that is longer isn't one for an item, but for one that was lost.
const LOST: Duration = Duration::from_secs(60);

type Pool = Arc<LazyPool<usize, &'static str>>;
type Item = LazyOwnedReusable<usize, &'static str>;

fn pool(is_fair: bool) -> Result<Pool, Box<dyn Error>> {
    let pool = LazyPool::builder(ITEMS).init(|| Ok(0));
    let pool = if is_fair { pool.fair() } else { pool };
    Ok(Arc::new(pool.build()?))
}

/// Gives way to other tasks so many times, by any executor.
async fn gives_way(mut times: usize) {
    poll_fn(|context| {
        if times == 0 {
            return Poll::Ready(());
        }
        times -= 1;
        context.waker().wake_by_ref();
        Poll::Pending
    })
    .await;
}

/// An initializer that is async.
async fn made(item: usize) -> Result<usize, &'static str> {
    gives_way(1).await;
    Ok(item)
}

/// Holds an item while others run.
async fn hold(mut item: Item, mine: usize) {
    *item = mine;
    gives_way(20).await;
    assert_eq!(*item, mine, "it has two holders");
    match mine % 7 {
        0 => item.discard(),
        1 => assert_eq!(item.detach(), mine),
        _ => drop(item),
    }
}

/// A task of tokio, whose pulls give up by its clock. Returns how many did.
async fn by_tokio(pool: Pool, mine: usize) -> usize {
    let mut gave_up = 0;
    for turn in 0..TURNS {
        let short = Duration::from_micros((mine * 310 + turn * 170) as u64 % 20_000);
        let limit = if (mine + turn) % 3 == 0 { short } else { LOST };
        let pulled = match turn % 2 {
            0 => tokio::time::timeout(limit, pool.pull_owned_async()).await,
            _ => tokio::time::timeout(limit, pool.pull_owned_async_with(made(mine))).await,
        };
        match pulled {
            Ok(item) => hold(item.expect("none fails"), mine).await,
            Err(_) if limit == LOST => panic!("a task was lost"),
            Err(_) => gave_up += 1,
        }
    }
    gave_up
}

/// A task of futures, whose pulls give up after some polls. Returns how many did.
async fn by_futures(pool: Pool, mine: usize) -> usize {
    let mut gave_up = 0;
    for turn in 0..TURNS {
        let pull = Box::pin(pool.pull_owned_async_with(made(mine)));
        let pulled = match (mine + turn) % 3 {
            0 => match select(pull, Box::pin(gives_way(mine % 50))).await {
                Either::Left((pulled, _)) => Some(pulled),
                Either::Right(_) => None,
            },
            _ => Some(pull.await),
        };
        match pulled {
            Some(item) => hold(item.expect("none fails"), mine).await,
            None => gave_up += 1,
        }
    }
    gave_up
}

/// Says how many pulls gave up. All tasks are over, and nothing is in use.
fn report(name: &str, pool: &Pool, begun: Instant, gave_up: usize) {
    let status = pool.status();
    assert_eq!((status.in_use, status.waiting), (0, 0));
    println!(
        "{name}: {gave_up} pulls gave up, none was lost, {:?}",
        begun.elapsed()
    );
}

fn main() -> Result<(), Box<dyn Error>> {
    let tasks = env::args()
        .nth(1)
        .map_or(Ok(1_000), |tasks| tasks.parse())?;
    let tokio = tokio::runtime::Builder::new_multi_thread()
        .enable_time()
        .build()?;
    let futures = ThreadPool::new()?;
    for (order, is_fair) in [("any order", false), ("fair", true)] {
        println!("{tasks} tasks of {TURNS} pulls on {ITEMS} items, {order}");
        let (begun, shared) = (Instant::now(), pool(is_fair)?);
        let spawned = (0..tasks).map(|mine| tokio.spawn(by_tokio(Arc::clone(&shared), mine)));
        let gave_up = tokio.block_on(join_all(spawned.collect::<Vec<_>>()));
        let gave_up: Result<Vec<_>, _> = gave_up.into_iter().collect();
        report("tokio", &shared, begun, gave_up?.iter().sum());

        let (begun, shared) = (Instant::now(), pool(is_fair)?);
        let spawn = |mine| futures.spawn_with_handle(by_futures(Arc::clone(&shared), mine));
        let spawned: Result<Vec<_>, _> = (0..tasks).map(spawn).collect();
        let gave_up = block_on(join_all(spawned?));
        report("futures", &shared, begun, gave_up.iter().sum());
    }
    Ok(())
}
