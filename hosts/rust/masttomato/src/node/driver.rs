//! What turns a node: on a thread of its own, or on the thread of whoever waits.

use super::call::{CallState, Rouse};
use super::core::{Core, Step};
use super::desks::Desk;
use super::net::Net;
use super::shared::{Command, RESTS, Shared};
use crate::engine::Doing;
use std::cell::{Cell, RefCell};
use std::hint;
use std::panic::{AssertUnwindSafe, catch_unwind};
use std::rc::{Rc, Weak};
use std::sync::Arc;
use std::time::{Duration, Instant};

/// So long a node sleeps at most, where nothing wants it earlier.
const LONGEST_SLEEP: Duration = Duration::from_secs(60);

/// So long others are left to rouse those whose answers have come, while there is nothing else to do.
const LEFT: Duration = Duration::from_micros(2);

thread_local! {
    static DRIVERS: RefCell<Vec<Weak<Driver>>> = const { RefCell::new(Vec::new()) };
}

/// What turns the node of this on this thread, if anything does.
pub(crate) fn driving(shared: &Arc<Shared>) -> Option<Rc<Driver>> {
    DRIVERS
        .try_with(|drivers| {
            let drivers = drivers.borrow();
            let mut alive = drivers.iter().filter_map(Weak::upgrade);
            alive.find(|driver| Arc::ptr_eq(&driver.shared, shared))
        })
        .ok()
        .flatten()
}

/// A node's tables and connections, on one thread. Nothing is borrowed while a method runs: so it may
/// ask the node, and turn it by waiting.
pub(crate) struct Driver {
    core: RefCell<Core>,
    net: RefCell<Net>,
    shared: Arc<Shared>,
    started: Instant,
    rests: Cell<u32>,
    commands: RefCell<Vec<Command>>,
    rouses: RefCell<Vec<Rouse>>,
    asleep: RefCell<Vec<Arc<CallState>>>,
    desk: Arc<Desk>,
}

impl Driver {
    pub(crate) fn new(core: Core, net: Net, shared: Arc<Shared>, started: Instant) -> Rc<Driver> {
        let desk = shared.desks().open(format!("masttomato-{}", shared.id()));
        let driver = Rc::new(Driver {
            core: RefCell::new(core),
            net: RefCell::new(net),
            shared,
            started,
            rests: Cell::new(0),
            commands: RefCell::default(),
            rouses: RefCell::default(),
            asleep: RefCell::default(),
            desk,
        });
        DRIVERS.with(|drivers| {
            let mut drivers = drivers.borrow_mut();
            drivers.retain(|known| known.strong_count() > 0);
            drivers.push(Rc::downgrade(&driver));
        });
        driver
    }

    fn now(&self) -> Duration {
        self.started.elapsed()
    }

    /// Asks the node's tables, on their own thread.
    pub(crate) fn ask<T>(&self, ask: impl FnOnce(&mut Core) -> T) -> T {
        self.core.borrow_mut().is_now(self.now());
        self.take_commands();
        ask(&mut self.core.borrow_mut())
    }

    // Whether there were any.
    fn take_commands(&self) -> bool {
        let has_some = self.shared.has_commands();
        if has_some {
            self.take_all_commands();
        }
        has_some
    }

    #[inline(never)]
    fn take_all_commands(&self) {
        let mut commands = self.commands.take();
        self.shared.take(&mut commands);
        for command in commands.drain(..) {
            self.core.borrow_mut().command(command);
        }
        self.commands.replace(commands);
    }

    /// Does what there is to do at this time: whether there is more to do at once.
    fn turn(&self, now: Duration) -> bool {
        self.core.borrow_mut().is_now(now);
        self.take_commands();
        self.read(now);
        self.work(now);
        // What was asked for meanwhile goes with the rest; what else it brings is for the next turn.
        let was_asked = self.take_commands();
        let has_more = self.write(now);
        self.leave(now);
        was_asked || has_more || self.shared.has_commands()
    }

    fn read(&self, now: Duration) {
        let (mut net, mut core) = (self.net.borrow_mut(), self.core.borrow_mut());
        while let Some(peer) = core.opened.pop() {
            net.dial_soon(peer, now);
        }
        net.read(&mut core.engine, now);
    }

    // Does all that the engine has to do, and the methods that run on this thread.
    fn work(&self, now: Duration) {
        loop {
            self.core.borrow_mut().work(now);
            let Some(mut step) = self.next_step() else { return };
            loop {
                // Whoever has its answer needn't wait for the end of a method.
                self.rouse(false);
                self.make(step);
                match self.next_step() {
                    Some(next) => step = next,
                    None => break,
                }
            }
        }
    }

    // By itself, so that nothing is borrowed while the step is made.
    fn next_step(&self) -> Option<Step> {
        self.core.borrow_mut().next_step()
    }

    fn make(&self, step: Step) {
        match step {
            Step::Run(task) => {
                self.desk.runs(task.running(), self.core.borrow().since());
                let done = task.run();
                // It may have taken long.
                let mut core = self.core.borrow_mut();
                core.is_now(self.now());
                self.desk.does(Doing::Works, core.since());
                core.done(done);
            }
            Step::Turn(method) => method.turn(),
            Step::Spawn(later, spawner) => {
                // A spawner that panics has dropped the method, of whose end the node hears so.
                let _spawned = catch_unwind(AssertUnwindSafe(|| spawner.spawn(Box::pin(later))));
            }
        }
    }

    // Writes what there is to write: whether more is to be written or read at once.
    fn write(&self, now: Duration) -> bool {
        let (mut net, mut core) = (self.net.borrow_mut(), self.core.borrow_mut());
        core.engine.fill(now);
        while let Some(peer) = core.silent.pop() {
            net.drop_link(peer, &mut core.engine, now);
        }
        net.write(&mut core.engine);
        core.engine.has_more(now) || net.has_more()
    }

    // Wakes and drops, with nothing borrowed.
    fn leave(&self, now: Duration) {
        let leaves = self.core.borrow().has_to_leave();
        let objects = leaves.then(|| self.core.borrow_mut().leave(now));
        self.rouse(true);
        drop(objects);
    }

    // Rouses who waits for what has come, with nothing borrowed; or leaves that to a thread that looks, for a turn at most.
    fn rouse(&self, leaves: bool) {
        if self.shared.has_asleep() {
            self.shared.rouse_asleep();
        }
        if self.core.borrow().has_rouses() {
            self.rouse_all(leaves);
        }
    }

    #[inline(never)]
    fn rouse_all(&self, leaves: bool) {
        let (mut rouses, mut asleep) = (self.rouses.take(), self.asleep.take());
        std::mem::swap(&mut rouses, &mut self.core.borrow_mut().rouses);
        for rouse in rouses.drain(..) {
            match rouse {
                Rouse::Task(waker) => waker.wake(),
                Rouse::Thread(state) => asleep.push(state),
            }
        }
        // A node without a thread may not be turned again for long.
        let leaves = leaves && !asleep.is_empty() && self.core.borrow().has_thread();
        if !leaves || !self.shared.leave_asleep(&mut asleep) {
            asleep.drain(..).for_each(|state| state.rouse());
        }
        self.rouses.replace(rouses);
        self.asleep.replace(asleep);
    }

    /// Waits for something to do, for so long at most: looks for a while, then sleeps. It answers the time.
    fn rest(&self, limit: Duration) -> Duration {
        let looks = self.shared.looks().min(limit);
        let mut now = self.now();
        if self.rests.get() == 0 && !looks.is_zero() {
            let since = now;
            while now - since < looks {
                if self.shared.has_commands() || self.look(now) {
                    return now;
                }
                if now - since > LEFT && self.shared.has_asleep() {
                    self.shared.rouse_asleep();
                }
                hint::spin_loop();
                now = self.now();
            }
            self.rests.set(RESTS);
        } else {
            self.rests.set(self.rests.get().saturating_sub(1));
        }
        let wanted = self.core.borrow().engine.next(now);
        let wanted = wanted.into_iter().chain(self.net.borrow().next()).min();
        let left = wanted.map_or(LONGEST_SLEEP, |time| time.saturating_sub(now));
        self.core.borrow_mut().drop_withdrawn(now, true);
        self.shared.rouse_asleep();
        if self.shared.may_sleep() {
            self.desk.does(Doing::Rests, self.started + now);
            self.net.borrow_mut().sleep(left.min(limit).min(LONGEST_SLEEP));
            self.shared.awake();
            now = self.now();
            self.desk.does(Doing::Works, self.started + now);
        }
        now
    }

    // Whether anything came over a connection.
    fn look(&self, now: Duration) -> bool {
        self.net.borrow_mut().look(&mut self.core.borrow_mut().engine, now)
    }

    /// Turns the node until something is there, or until a time.
    pub(crate) fn turn_until<T>(
        &self,
        end: Option<Instant>,
        mut found: impl FnMut() -> Option<T>,
    ) -> Option<T> {
        let mut now = self.now();
        loop {
            let has_more = self.turn(now);
            if let Some(found) = found() {
                // Where a method waited for that it goes on, and may take long.
                if self.shared.has_asleep() {
                    self.shared.rouse_asleep();
                }
                return Some(found);
            }
            let left = match end {
                None => LONGEST_SLEEP,
                Some(end) => end.checked_duration_since(Instant::now())?,
            };
            now = if has_more { self.now() } else { self.rest(left) };
        }
    }

    /// Turns the node until it was told to stop, then ends it: how many methods still run, and whether
    /// all peers that are connected were told.
    pub(crate) fn run_to_the_end(&self) -> (usize, bool) {
        let by = self.turn_until(None, || self.core.borrow().stops_at).unwrap_or_else(Instant::now);
        self.end(by)
    }

    /// Ends the node by a time: methods go on to their ends, sessions close, and what is due is written.
    pub(crate) fn end(&self, by: Instant) -> (usize, bool) {
        self.core.borrow_mut().engine.claim_no_more();
        let is_idle = || (self.core.borrow().running() == 0).then_some(());
        self.turn_until(Some(by), is_idle);
        let still_running = self.core.borrow().running();
        self.core.borrow_mut().engine.close_all();
        // The last word has a moment of its own, also where methods took all the time.
        let by = by.max(Instant::now() + Duration::from_millis(100));
        let is_settled = || self.core.borrow().engine.is_settled().then_some(());
        let told = self.turn_until(Some(by), is_settled).is_some();
        self.core.borrow_mut().engine.seal();
        let commands = self.shared.close();
        self.core.borrow_mut().stop(&commands);
        self.net.borrow_mut().close();
        self.leave(self.now());
        self.core.borrow_mut().drop_withdrawn(self.now(), true);
        self.shared.rouse_asleep();
        drop(commands);
        // Where that can't be written the next life begins as after a death.
        let _written = self.core.borrow_mut().engine.end_life();
        self.shared.set_stopped();
        (still_running, told)
    }
}
