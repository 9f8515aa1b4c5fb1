//! A scheduler that looks at a few queues: a dispatcher sends each batch of jobs to the shorter one of two queues, and
//! a watcher sees that no queue ever shows more jobs done than sent.
//!
//! Each worker has two components: the number of jobs that were sent to it, which only the dispatcher writes, and the
//! number that it has done, which only the worker writes. All calls are by keys. A word says how many updates they make
//! together; without one they make ten million.

use partial_door::{Key, Layout, Port, Refused};
use std::error::Error;
use std::sync::atomic::{AtomicBool, Ordering};
use std::sync::mpsc::{channel, Receiver, Sender};
use std::thread;
use std::time::Duration;

const WORKERS: usize = 4;
const UPDATES: u64 = 10_000_000;
const BATCH: u64 = 64;
const PAUSE: Duration = Duration::from_micros(20);

/// The components of a worker.
#[derive(Clone, Copy)]
struct Queue {
    sent: Key<u64>,
    done: Key<u64>,
}

/// Publishes a number that no other thread writes. A call that is refused for the moment is made again.
fn publish(port: &mut Port, key: Key<u64>, number: u64) -> Result<(), Refused> {
    let updated = port.retry(|port| port.set(key, number))?;
    assert!(updated.is_applied(), "no other thread updates the component");
    Ok(())
}

/// Does the jobs of the batches that come, and publishes how many it has done.
fn work(mut port: Port, queue: Queue, batches: Receiver<u64>) -> Result<u64, Refused> {
    let (mut sum, mut done) = (0, 0);
    for batch in batches {
        for job in batch * BATCH..(batch + 1) * BATCH {
            sum += job;
            done += 1;
            publish(&mut port, queue.done, done)?;
        }
    }
    Ok(sum)
}

/// Sends each batch to the shorter one of two queues, after publishing that it is sent.
fn dispatch(
    mut port: Port,
    batches: u64,
    queues: [Queue; WORKERS],
    senders: Vec<Sender<u64>>,
) -> Result<[u64; WORKERS], Refused> {
    let mut sent = [0; WORKERS];
    for batch in 0..batches {
        let first = (batch % WORKERS as u64) as usize;
        let second = (first + 1 + (batch / 7 % (WORKERS as u64 - 1)) as usize) % WORKERS;
        let (done, other) = port.snapshot((queues[first].done, queues[second].done))?;
        let chosen = if sent[first] - done > sent[second] - other { second } else { first };
        sent[chosen] += BATCH;
        publish(&mut port, queues[chosen].sent, sent[chosen])?;
        senders[chosen].send(batch).expect("a worker takes batches until there are no more");
    }
    Ok(sent)
}

/// Looks at one queue after another until all is done. Returns how often, and the longest queue that it has seen.
fn watch(mut port: Port, queues: [Queue; WORKERS], is_over: &AtomicBool) -> Result<(u64, u64), Refused> {
    let (mut looks, mut longest) = (0, 0);
    while !is_over.load(Ordering::Acquire) {
        let worker = (looks % WORKERS as u64) as usize;
        let Queue { sent, done } = queues[worker];
        let (sent, done) = port.snapshot((sent, done))?;
        assert!(done <= sent, "worker {worker} has done {done} of {sent} jobs");
        looks += 1;
        longest = longest.max(sent - done);
        thread::sleep(PAUSE);
    }
    Ok((looks, longest))
}

fn main() -> Result<(), Box<dyn Error + Send + Sync>> {
    let updates = std::env::args().nth(1).map_or(Ok(UPDATES), |word| word.parse())?;
    let batches: u64 = updates / (BATCH + 1);
    let jobs = batches * BATCH;
    let mut layout = Layout::new();
    let queues = [(); WORKERS].map(|()| Queue { sent: layout.add(0), done: layout.add(0) });
    let memory = layout.open()?;
    let is_over = AtomicBool::new(false);
    let (sent, sum, (looks, longest)) = thread::scope(|scope| {
        let (senders, workers): (Vec<_>, Vec<_>) = queues
            .into_iter()
            .map(|queue| {
                let (sender, batches) = channel();
                let port = memory.port().expect("a port is free");
                (sender, scope.spawn(move || work(port, queue, batches)))
            })
            .unzip();
        let port = memory.port()?;
        let watcher = scope.spawn(|| watch(port, queues, &is_over));
        let sent = dispatch(memory.port()?, batches, queues, senders);
        let sums = workers.into_iter().map(|worker| worker.join().expect("no worker panics"));
        let sum = sums.sum::<Result<u64, Refused>>();
        is_over.store(true, Ordering::Release);
        let watched = watcher.join().expect("the watcher doesn't panic");
        Ok::<_, Box<dyn Error + Send + Sync>>((sent?, sum?, watched?))
    })?;
    assert_eq!(sum, jobs * jobs.saturating_sub(1) / 2);
    let mut port = memory.port()?;
    assert_eq!(port.snapshot(queues.map(|queue| queue.sent))?, sent);
    assert_eq!(port.snapshot(queues.map(|queue| queue.done))?, sent);
    println!("{jobs} jobs by {WORKERS} workers: {sent:?}; in {looks} looks the longest queue had {longest} jobs");
    Ok(())
}
