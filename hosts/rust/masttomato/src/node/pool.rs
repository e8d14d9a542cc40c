//! Threads that run methods.

use super::core::Task;
use super::desks::Desk;
use super::later::Turned;
use super::shared::{Command, Shared};
use crate::engine::Doing;
use crate::interface::Exported;
use std::collections::VecDeque;
use std::io;
use std::panic::{AssertUnwindSafe, catch_unwind};
use std::sync::{Arc, Condvar, Mutex, MutexGuard, PoisonError};
use std::thread;
use std::time::Instant;

enum Errand {
    Run(Task),
    Turn(Arc<Turned>),
    Drop(Box<dyn Exported>),
}

#[derive(Default)]
struct Line {
    errands: VecDeque<Errand>,
    // How many workers sleep: waking nobody would cost a call of the system too.
    sleep: usize,
    is_closed: bool,
}

/// Threads that run methods, and drop objects.
pub(crate) struct Pool {
    shared: Arc<Shared>,
    line: Mutex<Line>,
    comes: Condvar,
}

impl Pool {
    /// So many threads, each of which ends once the pool is closed and its errand is done.
    pub(crate) fn start(shared: &Arc<Shared>, workers: usize) -> io::Result<Arc<Pool>> {
        let shared = shared.clone();
        let pool = Arc::new(Pool { shared, line: Mutex::default(), comes: Condvar::new() });
        for number in 1..=workers.max(1) {
            let pool = pool.clone();
            let name = format!("masttomato-{}-worker-{number}", pool.shared.id());
            let own = name.clone();
            thread::Builder::new().name(name).spawn(move || pool.work(own))?;
        }
        Ok(pool)
    }

    fn line(&self) -> MutexGuard<'_, Line> {
        self.line.lock().unwrap_or_else(PoisonError::into_inner)
    }

    fn give(&self, errand: Errand) {
        self.give_all([errand].into_iter());
    }

    // Whoever takes one of them wakes another worker for the rest.
    fn give_all(&self, errands: impl Iterator<Item = Errand>) {
        let mut line = self.line();
        if line.is_closed {
            drop(line);
            // A drop may give another errand, so nothing is locked then.
            return errands.for_each(drop);
        }
        line.errands.extend(errands);
        let sleep = line.sleep;
        drop(line);
        if sleep > 0 {
            self.comes.notify_one();
        }
    }

    pub(crate) fn run(&self, task: Task) {
        self.give(Errand::Run(task));
    }

    pub(crate) fn turn(&self, method: Arc<Turned>) {
        self.give(Errand::Turn(method));
    }

    /// Drops objects. One whose drop takes its time holds up none of the others as long as there are workers.
    pub(crate) fn drop_objects(&self, objects: impl Iterator<Item = Box<dyn Exported>>) {
        self.give_all(objects.map(Errand::Drop));
    }

    pub(crate) fn close(&self) {
        let mut line = self.line();
        line.is_closed = true;
        let left = std::mem::take(&mut line.errands);
        drop(line);
        self.comes.notify_all();
        drop(left);
    }

    fn next(&self, desk: &Desk) -> Option<Errand> {
        let mut line = self.line();
        loop {
            if let Some(errand) = line.errands.pop_front() {
                let wakes = line.sleep > 0 && !line.errands.is_empty();
                drop(line);
                if wakes {
                    self.comes.notify_one();
                }
                return Some(errand);
            }
            if line.is_closed {
                return None;
            }
            line.sleep += 1;
            desk.does(Doing::Rests, Instant::now());
            line = self.comes.wait(line).unwrap_or_else(PoisonError::into_inner);
            line.sleep -= 1;
        }
    }

    fn work(&self, name: String) {
        let desk = self.shared.desks().open(name);
        while let Some(errand) = self.next(&desk) {
            let now = Instant::now();
            match &errand {
                Errand::Run(task) => desk.runs(task.running(), now),
                Errand::Turn(_) | Errand::Drop(_) => desk.does(Doing::Works, now),
            }
            match errand {
                Errand::Run(task) => {
                    let done = Box::new(task.run());
                    self.shared.post(Command::Done(done));
                }
                Errand::Turn(method) => method.turn(),
                Errand::Drop(object) => {
                    // A drop that panics ends no worker.
                    let _dropped = catch_unwind(AssertUnwindSafe(|| drop(object)));
                }
            }
        }
    }
}
