//! Work on several threads, with what it makes in the order of what it was made from.

use crate::failure::Failure;
use std::sync::mpsc::{sync_channel, Receiver, SyncSender};
use std::thread;

/// How many items a thread may have waiting, on either side of it.
const AHEAD: usize = 2;

/// Gives each item to one of `jobs` threads in turn, and what the thread makes of it to `done`, in the items' order. Each
/// thread has a worker of its own. Ends at the first failure.
pub fn in_order<Item, Made, Worker>(
    jobs: usize,
    items: impl Iterator<Item = Result<Item, Failure>>,
    new_worker: impl Fn() -> Worker + Sync,
    done: impl FnMut(Made) -> Result<(), Failure> + Send,
) -> Result<(), Failure>
where
    Item: Send,
    Made: Send,
    Worker: FnMut(Item) -> Made,
{
    let new_worker = &new_worker;
    thread::scope(|scope| {
        let (mut feeds, mut answers) = (Vec::new(), Vec::new());
        for _ in 0..jobs {
            let (feed, given) = sync_channel(AHEAD);
            let (made, answer) = sync_channel(AHEAD);
            start(scope, move || work(given, new_worker(), made))?;
            feeds.push(feed);
            answers.push(answer);
        }
        let collector = start(scope, move || collect(answers, done))?;
        let fed = hand_out(items, feeds);
        collector.join().expect("the collector does not panic")?;
        fed
    })
}

fn start<'scope, T: Send + 'scope>(
    scope: &'scope thread::Scope<'scope, '_>,
    body: impl FnOnce() -> T + Send + 'scope,
) -> Result<thread::ScopedJoinHandle<'scope, T>, Failure> {
    let thread = thread::Builder::new().spawn_scoped(scope, body);
    thread.map_err(|error| Failure::Cannot("a thread".into(), error))
}

/// Stops without failure when the threads have: then the collector failed, and tells why.
fn hand_out<Item>(
    items: impl Iterator<Item = Result<Item, Failure>>,
    feeds: Vec<SyncSender<Item>>,
) -> Result<(), Failure> {
    for (item, feed) in items.zip(feeds.iter().cycle()) {
        if feed.send(item?).is_err() {
            break;
        }
    }
    Ok(())
}

fn work<Item, Made>(
    given: Receiver<Item>,
    mut worker: impl FnMut(Item) -> Made,
    made: SyncSender<Made>,
) {
    for item in given {
        if made.send(worker(item)).is_err() {
            break;
        }
    }
}

/// The first thread in turn that has nothing more to give was the last that got an item.
fn collect<Made>(
    answers: Vec<Receiver<Made>>,
    mut done: impl FnMut(Made) -> Result<(), Failure>,
) -> Result<(), Failure> {
    for answer in answers.iter().cycle() {
        match answer.recv() {
            Ok(made) => done(made)?,
            Err(_) => break,
        }
    }
    Ok(())
}
