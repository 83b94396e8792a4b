//! Sessions that work all at once, while something else is done.

use crate::lab::Failure;
use crate::load::payments::Client;
use std::sync::atomic::{AtomicBool, Ordering};
use std::thread::{self, ScopedJoinHandle};
use std::time::Duration;

/// Between two pieces of work of a session: it leaves the processor to others.
const PAUSE: Duration = Duration::from_millis(10);

/// Does something while every session works, for so long before it and after it too. Gives what came of it, and the longest time
/// that a session waited for an answer.
pub fn at_work<T>(
    clients: &mut [Client],
    around: Duration,
    act: impl FnOnce() -> Result<T, Failure>,
) -> Result<(T, Duration), Failure> {
    let over = AtomicBool::new(false);
    thread::scope(|scope| {
        let workers = clients.iter_mut().map(|client| scope.spawn(|| work_until(client, &over)));
        let workers: Vec<_> = workers.collect();
        thread::sleep(around);
        let done = act();
        thread::sleep(around);
        over.store(true, Ordering::Relaxed);
        let longest: Result<Vec<Duration>, Failure> = workers.into_iter().map(finished).collect();
        Ok((done?, longest?.into_iter().max().unwrap_or_default()))
    })
}

/// Works until it is over. Gives the longest time that an answer took.
fn work_until(client: &mut Client, over: &AtomicBool) -> Result<Duration, Failure> {
    client.longest = Duration::ZERO;
    while !over.load(Ordering::Relaxed) {
        client.work()?;
        thread::sleep(PAUSE);
    }
    Ok(client.longest)
}

fn finished<T>(worker: ScopedJoinHandle<'_, Result<T, Failure>>) -> Result<T, Failure> {
    worker.join().map_err(|_| Failure("a session's thread broke off".into()))?
}
