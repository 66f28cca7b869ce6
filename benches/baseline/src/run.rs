//! Rounds: all tasks that are due at one tick are polled, by several workers in batches, and then the clock advances.

use crate::plan::{Clock, Plan};
use crate::task::{put_word_and_number, Task};
use std::collections::BTreeMap;
use std::sync::atomic::{AtomicU64, Ordering};
use std::sync::Mutex;

/// A task that moves between lists by one word.
type Boxed = Box<Task>;

/// The tasks that wait, by the tick at which they are due, this tick by their numbers, and those that no longer wait.
struct Timers {
    clock: Clock,
    waiting: BTreeMap<u64, Vec<Boxed>>,
    due_at: BTreeMap<u64, u64>,
    resting: Vec<Boxed>,
}

impl Timers {
    fn set(&mut self, task: Boxed) {
        match task.due.and_then(|due| self.clock.tick(due)) {
            Some(tick) => {
                self.due_at.insert(task.number as u64, tick);
                self.waiting.entry(tick).or_default().push(task);
            }
            None => self.resting.push(task),
        }
    }

    fn take(&mut self) -> Option<(u64, Vec<Boxed>)> {
        let (now, tasks) = self.waiting.pop_first()?;
        for task in &tasks {
            self.due_at.remove(&(task.number as u64));
        }
        Some((now, tasks))
    }
}

struct Workers {
    most: usize,
    grain: usize,
    polls: AtomicU64,
}

impl Workers {
    fn poll_batch(&self, batch: &mut [Boxed], now: u64) {
        for task in batch.iter_mut() {
            task.poll(now);
        }
        self.polls.fetch_add(batch.len() as u64, Ordering::Relaxed);
    }

    /// Polls the tasks at a tick. The caller is one of the workers, and the only one if one is enough.
    fn round(&self, tasks: &mut [Boxed], now: u64) {
        let batches = tasks.len().div_ceil(self.grain);
        let workers = self.most.min(batches);
        if workers <= 1 {
            return self.poll_batch(tasks, now);
        }
        let board = Mutex::new(tasks.chunks_mut(self.grain));
        let claim = || board.lock().expect("no worker panics").next();
        let work = || {
            while let Some(batch) = claim() {
                self.poll_batch(batch, now);
            }
        };
        std::thread::scope(|scope| {
            for _ in 1..workers {
                scope.spawn(work);
            }
            work();
        });
    }
}

/// The report of a plan.
pub fn run(plan: Plan) -> Vec<u8> {
    let Plan { clock, workers, grain, jobs } = plan;
    let workers = Workers { most: workers, grain, polls: AtomicU64::new(0) };
    let mut timers = Timers { clock, waiting: BTreeMap::new(), due_at: BTreeMap::new(), resting: vec![] };
    for (number, job) in jobs.into_iter().enumerate() {
        timers.set(Box::new(Task::new(number, job)));
    }
    while let Some((now, mut tasks)) = timers.take() {
        workers.round(&mut tasks, now);
        for task in tasks {
            timers.set(task);
        }
    }
    let mut tasks = timers.resting;
    tasks.sort_unstable_by_key(|task| task.number);
    let mut report = vec![];
    for task in tasks {
        task.put(&mut report, timers.clock.horizon());
    }
    put_word_and_number(&mut report, "polls ", workers.polls.into_inner());
    report.push(b'\n');
    report
}
