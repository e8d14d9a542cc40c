//! A node's objects, names and open calls, on its own thread, over an engine.

use super::ahead::Reckoning;
use super::call::{CallError, CallState, Completed, Fault, Rouse};
use super::cancel::Cancel;
use super::hold::Hold;
use super::later::{Later, Spawn, Turned, Turner};
use super::pool::Pool;
use super::shared::{Command, Shared};
use super::spans::{self, ServeSpan};
use super::{Changes, Context, NodeError, Run};
use crate::engine::{
    Answered, BAD_ARGUMENTS, CANCELLED, Engine, GREET, LOST, PANICKED, Report, Running, Session,
    TOO_LARGE, Ticket, Turn, fault_value,
};
use crate::interface::{Arguments, Description, Exported, Packed, Served};
use crate::numbers::{ByNumber, ByTheirNumber};
use crate::space::{
    CallNo, Job, JobNo, Outcome, Reference, Refusal, SpaceError, SpaceId, Status, Value,
};
use std::collections::{HashMap, VecDeque};
use std::panic::{AssertUnwindSafe, catch_unwind};
use std::sync::{Arc, Weak, mpsc};
use std::time::{Duration, Instant};

/// The agent's methods: what other kinds of nodes have, and what these have beside.
const PUT: u16 = 0;
const GET: u16 = 1;
const REMOVE: u16 = 2;
pub(super) const LOOKUP: u16 = 16;
pub(super) const DESCRIBE: u16 = 17;
const CANCEL: u16 = 18;
/// Its faults.
const ARGUMENT: i64 = 1;
const NO_NAME: i64 = 3;
const REFUSED: i64 = 4;
const OTHER_INTERFACE: i64 = 5;
/// So many names there are at most, and so many bytes in one.
const MOST_NAMES: usize = 1_024;
const LONGEST_NAME: usize = 255;
/// So many objects that were withdrawn are dropped at once, or those of so long.
const DROPS: usize = 64;
const DROP_WAITS: Duration = Duration::from_millis(1);
/// So many that weren't used are kept for the next jobs.
const SPARE: usize = 64;

/// A call that an object is to carry out.
struct Work {
    end: End,
    method: u16,
    packed: Packed,
}

enum Place {
    Here(Box<dyn Exported>),
    /// A method runs; of this node's own call, it is known whose.
    Away(Option<Arc<CallState>>),
    Broken,
}

struct Object {
    place: Place,
    /// Where a method runs: which, and since when.
    running: Option<(Running, Instant)>,
    run: Run,
    line: VecDeque<Work>,
    description: Description,
}

/// Whom a method's outcome is for.
pub(crate) enum End {
    Job { job: JobNo, caller: Caller, cancel: Arc<Cancel> },
    Local(Own),
}

/// A call of an own object, which is held meanwhile. Where it is dropped unanswered, its node has stopped.
pub(crate) struct Own {
    state: Arc<CallState>,
    _target: Arc<Hold>,
    is_answered: bool,
}

impl Own {
    fn answer(mut self, completed: Completed) -> Option<Rouse> {
        self.is_answered = true;
        self.state.complete(completed)
    }
}

impl Drop for Own {
    fn drop(&mut self) {
        if !self.is_answered
            && let Some(rouse) = self.state.complete(Err(CallError::NodeStopped))
        {
            rouse.rouse();
        }
    }
}

/// A call of another space, by its number there.
type Caller = (SpaceId, CallNo);

impl End {
    fn heard(&self) -> Heard {
        match self {
            End::Job { cancel, .. } => Heard::Job(cancel.clone()),
            End::Local(own) => Heard::Local(own.state.clone()),
        }
    }
}

/// Where it is heard that a call was cancelled.
#[derive(Debug)]
pub(crate) enum Heard {
    Job(Arc<Cancel>),
    Local(Arc<CallState>),
}

impl Heard {
    pub(crate) fn cancel(&self) -> &Cancel {
        match self {
            Heard::Job(cancel) => cancel,
            Heard::Local(state) => state.cancel(),
        }
    }
}

/// A method that is to run, away from the node's tables.
pub(crate) struct Task {
    index: u64,
    object: Box<dyn Exported>,
    method: u16,
    arguments: Arguments,
    context: Context,
    loans: Vec<Arc<Hold>>,
    end: End,
}

/// A method that has run, and its object, unless it panicked.
pub(crate) struct Done {
    pub(crate) index: u64,
    pub(crate) object: Option<Box<dyn Exported>>,
    pub(crate) served: Served,
    pub(crate) loans: Vec<Arc<Hold>>,
    pub(crate) end: End,
}

impl Task {
    pub(crate) fn run(self) -> Done {
        let span = self.span();
        let Task { index, mut object, method, arguments, context, loans, end } = self;
        let serve = AssertUnwindSafe(|| object.serve(method, arguments, &context));
        let served = span.within(|| catch_unwind(serve));
        let (object, served) = match served {
            Ok(served) => (Some(object), served),
            Err(_) => {
                // The object is in an unknown state; what its drop does is caught too.
                let _dropped = catch_unwind(AssertUnwindSafe(|| drop(object)));
                (None, Served::Panicked)
            }
        };
        Done { index, object, served, loans, end }
    }

    // The same of a method that is async.
    fn later(self, shared: &Arc<Shared>) -> Later {
        let span = self.span();
        let Task { index, mut object, method, arguments, context, loans, end } = self;
        let method = async move {
            let served = object.serve_async(method, arguments, &context).await;
            (object, served)
        };
        Later::new(shared, Box::pin(span.around(method)), index, loans, end)
    }

    fn span(&self) -> ServeSpan {
        let Running { object, method, caller, call, .. } = self.running();
        ServeSpan::new(caller, call, object, method)
    }

    /// What is to run.
    pub(crate) fn running(&self) -> Running {
        let call = match &self.end {
            End::Job { caller: (_, call), .. } => Some(*call),
            End::Local(_) => None,
        };
        Running::new(self.index, self.method, self.context.caller(), call)
    }
}

/// What is to be done on the node's thread once nothing of it is borrowed.
pub(crate) enum Step {
    Run(Task),
    Turn(Arc<Turned>),
    Spawn(Later, Arc<dyn Spawn>),
}

// What an open call is for.
enum Purpose {
    Method,
    /// A method, at once or not at all.
    Try,
    /// The name, to be asked for in the way of other nodes where the owner doesn't know this one's.
    Lookup(SpaceId, Vec<u8>),
    /// What is given where the owner says yes.
    Cast(Arc<Hold>),
}

struct OpenCall {
    owner: SpaceId,
    state: Arc<CallState>,
    purpose: Purpose,
}

/// The holds of one peer's objects, some of which may be gone.
#[derive(Default)]
struct Holds {
    all: Vec<Weak<Hold>>,
    most: usize,
}

impl Holds {
    // Keeps one more, and forgets those that are gone where they are many.
    fn keep(&mut self, hold: &Arc<Hold>) {
        if self.all.len() > self.most {
            self.all.retain(|hold| hold.strong_count() > 0);
            self.most = 2 * self.all.len() + 64;
        }
        self.all.push(Arc::downgrade(hold));
    }
}

/// What is on a node's own thread.
pub(crate) struct Core {
    pub(crate) engine: Engine,
    shared: Arc<Shared>,
    objects: ByNumber<u64, Object>,
    names: HashMap<Vec<u8>, Arc<Hold>>,
    // Of what is held of others' objects, whose.
    others: HashMap<SpaceId, Holds>,
    calls: ByNumber<Ticket, OpenCall>,
    // Calls of others that wait in an object's line, or run.
    cancels: ByTheirNumber<Caller, Arc<Cancel>>,
    spare: Vec<Arc<Cancel>>,
    steps: VecDeque<Step>,
    pool: Option<Arc<Pool>>,
    spawner: Option<Arc<dyn Spawn>>,
    ahead: Reckoning,
    // Empty, but their room is used again.
    answers: Vec<(Ticket, Answered)>,
    jobs: Vec<Job>,
    turn: Turn,
    watchers: Vec<mpsc::Sender<(SpaceId, Session)>>,
    running: usize,
    pub(crate) silent: Vec<SpaceId>,
    /// Peers whose sessions were opened anew: they are connected to at once.
    pub(crate) opened: Vec<SpaceId>,
    started: Instant,
    // Since it was started: when this turn began, or the last method of it on the node's own thread ended.
    now: Duration,
    pub(crate) stops_at: Option<Instant>,
    /// Who waits for what has come, and is to be roused once nothing of the node is borrowed.
    pub(crate) rouses: Vec<Rouse>,
    withdrawn: Vec<Box<dyn Exported>>,
    withdrawn_since: Duration,
}

impl Core {
    pub(crate) fn new(
        engine: Engine,
        shared: Arc<Shared>,
        pool: Option<Arc<Pool>>,
        spawner: Option<Arc<dyn Spawn>>,
        started: Instant,
    ) -> Core {
        Core {
            engine,
            shared,
            objects: ByNumber::default(),
            names: HashMap::new(),
            others: HashMap::new(),
            calls: ByNumber::default(),
            cancels: ByTheirNumber::default(),
            spare: Vec::new(),
            steps: VecDeque::new(),
            pool,
            spawner,
            ahead: Reckoning::default(),
            answers: Vec::new(),
            jobs: Vec::new(),
            turn: Turn::default(),
            watchers: Vec::new(),
            running: 0,
            silent: Vec::new(),
            opened: Vec::new(),
            started,
            now: Duration::ZERO,
            stops_at: None,
            rouses: Vec::new(),
            withdrawn: Vec::new(),
            withdrawn_since: Duration::ZERO,
        }
    }

    /// Whether the node has a thread of its own, and workers.
    pub(crate) fn has_thread(&self) -> bool {
        self.pool.is_some()
    }

    /// How many methods run.
    pub(crate) fn running(&self) -> usize {
        self.running
    }

    /// It is so long since it was started.
    pub(crate) fn is_now(&mut self, now: Duration) {
        self.now = now;
    }

    /// The time, as far as that was said.
    pub(crate) fn since(&self) -> Instant {
        self.started + self.now
    }

    /// Whether anybody is to be roused.
    pub(crate) fn has_rouses(&self) -> bool {
        !self.rouses.is_empty()
    }

    pub(crate) fn command(&mut self, command: Command) {
        match command {
            Command::Call { ticket, target, method, packed, state, is_try } => {
                let purpose = if is_try { Purpose::Try } else { Purpose::Method };
                self.call(ticket, &target, method, packed, state, purpose);
            }
            Command::Lookup { ticket, peer, name, wanted, state } => {
                self.lookup(ticket, peer, name, wanted, state);
            }
            Command::Cast { ticket, hold, wanted, state } => self.cast(ticket, hold, wanted, state),
            Command::Place { reference, object, run } => {
                self.ahead.is_placed();
                self.place(reference, object, run);
            }
            Command::Abandon(ticket) => {
                self.calls.remove(&ticket);
                self.engine.abandon(ticket);
            }
            Command::Cancel(ticket) => self.cancel(ticket),
            Command::Release(reference) => self.engine.release(reference),
            Command::Done(done) => self.done(*done),
            Command::Turn(method) => self.steps.push_back(Step::Turn(method)),
            Command::Ask(ask) => ask(self),
            Command::Stop(by) => {
                self.engine.claim_no_more();
                self.stops_at = Some(self.stops_at.map_or(by, |known| known.min(by)));
            }
        }
    }

    pub(crate) fn export(
        &mut self,
        object: Box<dyn Exported>,
        run: Run,
    ) -> Result<Reference, NodeError> {
        let reference = self.engine.export().map_err(|error| match error {
            SpaceError::Refused(Refusal::Limit) => NodeError::Full,
            error => NodeError::Space(error),
        })?;
        self.place(reference, object, run);
        Ok(reference)
    }

    /// The same for another thread, which waits for it: where that is often so, the next ones won't.
    pub(crate) fn export_for(
        &mut self,
        object: Box<dyn Exported>,
        run: Run,
    ) -> Result<Reference, NodeError> {
        self.ahead.was_asked();
        self.export(object, run)
    }

    // An own object is there.
    fn place(&mut self, reference: Reference, object: Box<dyn Exported>, run: Run) {
        let description = object.describe();
        let place = Place::Here(object);
        let (running, line) = (None, VecDeque::new());
        let object = Object { place, running, run, line, description };
        self.objects.insert(reference.index, object);
    }

    // Exports ahead, where objects are often exported from other threads.
    fn export_ahead(&mut self) {
        if self.stops_at.is_none() {
            self.ahead.fill(self.shared.ahead(), || self.engine.export().ok());
        }
    }

    pub(crate) fn bind(&mut self, name: &str, hold: Arc<Hold>) -> Result<(), NodeError> {
        let is_name = (1..=LONGEST_NAME).contains(&name.len());
        if !is_name || self.names.len() >= MOST_NAMES && !self.names.contains_key(name.as_bytes()) {
            return Err(NodeError::BadName);
        }
        self.names.insert(name.as_bytes().to_vec(), hold);
        Ok(())
    }

    pub(crate) fn unbind(&mut self, name: &str) -> bool {
        self.names.remove(name.as_bytes()).is_some()
    }

    pub(crate) fn open(&mut self, peer: SpaceId) -> Result<u32, NodeError> {
        let number = self.engine.open(peer, self.started.elapsed()).map_err(NodeError::Space)?;
        self.opened.push(peer);
        Ok(number)
    }

    /// How the node stands.
    pub(crate) fn report(&mut self) -> Report {
        let mut report = self.engine.report(self.started.elapsed());
        let all = self.objects.values().filter_map(|object| object.running);
        let longest = all.min_by_key(|(_, since)| *since);
        report.longest = longest.map(|(running, since)| (running, since.elapsed()));
        report.threads = self.shared.desks().report();
        let ahead = self.ahead.ready();
        report.live -= ahead;
        report.of_space.live -= ahead;
        report
    }

    pub(crate) fn watch(&mut self) -> Changes {
        let (sender, receiver) = mpsc::channel();
        self.watchers.push(sender);
        Changes::new(receiver)
    }

    fn complete(&mut self, state: &Arc<CallState>, completed: Completed) {
        self.rouses.extend(state.complete(completed));
    }

    fn call(
        &mut self,
        ticket: Ticket,
        target: &Arc<Hold>,
        method: u16,
        packed: Packed,
        state: Arc<CallState>,
        purpose: Purpose,
    ) {
        let owner = target.reference().owner;
        state.calls(target.reference(), method);
        let is_mine = |hold: &Arc<Hold>| Arc::ptr_eq(hold.shared(), &self.shared);
        if !packed.holds.iter().all(is_mine) {
            return self.complete(&state, Err(CallError::OtherNode));
        }
        if state.cancel().is_set() {
            return self.complete(&state, Err(CallError::Fault(Fault::Cancelled)));
        }
        if packed.holds.iter().any(|hold| hold.is_lost()) {
            return self.complete(&state, Err(CallError::Lost));
        }
        if target.is_lost() {
            return self.complete(&state, Err(CallError::Down(owner)));
        }
        if owner == self.engine.id() {
            return self.call_here(target, method, packed, state, purpose);
        }
        let is_try = matches!(purpose, Purpose::Try);
        self.calls.insert(ticket, OpenCall { owner, state: state.clone(), purpose });
        let number = match is_try {
            true => self.engine.try_to_call(ticket, target.reference(), method, packed.value),
            false => self.engine.call_or_wait(ticket, target.reference(), method, packed.value),
        };
        for reference in dropped(packed.holds) {
            match number {
                Some(_) => self.engine.release_sent(reference),
                None => self.engine.release(reference),
            }
        }
        if let Some(number) = number {
            state.set_number(number);
        }
    }

    // A call of an own object stands in its line beside those of others; it is no event of the space.
    fn call_here(
        &mut self,
        target: &Arc<Hold>,
        method: u16,
        packed: Packed,
        state: Arc<CallState>,
        purpose: Purpose,
    ) {
        let index = target.reference().index;
        if index == 0 {
            let outcome = self.agent(self.engine.id(), method, &packed.value);
            let (status, value) = status_of(outcome);
            let holds = self.names.values().filter(|hold| value == Value::Ref(hold.reference()));
            let packed = Packed { holds: holds.take(1).cloned().collect(), value };
            let completed = completed_of(status, packed, &purpose);
            return self.complete(&state, completed);
        }
        let Some(object) = self.objects.get_mut(&index) else {
            return self.complete(&state, Err(CallError::NoMethod));
        };
        let end = End::Local(Own { state, _target: target.clone(), is_answered: false });
        object.line.push_back(Work { end, method, packed });
        self.start(index);
    }

    // Nobody wants a call any more. Where it was made, the owner of its object is told.
    fn cancel(&mut self, ticket: Ticket) {
        let (open, made) = (self.calls.remove(&ticket), self.engine.number(ticket));
        self.engine.abandon(ticket);
        if let (Some(open), Some(number)) = (open, made) {
            let number = Value::Int(number.get() as i64);
            let ticket = self.shared.next_ticket();
            self.engine.call(ticket, open.owner.agent(), CANCEL, number);
        }
    }

    // A call of another space was cancelled, which may still be on its way, wait, or run.
    fn cancelled(&mut self, client: SpaceId, call: CallNo) {
        self.engine.cancel(client, call);
        if let Some(cancel) = self.cancels.get(&(client, call)) {
            self.rouses.extend(cancel.set().into_iter().map(Rouse::Task));
        }
    }

    fn lookup(
        &mut self,
        ticket: Ticket,
        peer: SpaceId,
        name: Vec<u8>,
        wanted: Description,
        state: Arc<CallState>,
    ) {
        let [interface, checksum] = wanted.values();
        let value = Value::List(vec![Value::Bytes(name.clone()), interface, checksum]);
        let agent = Hold::uncounted(&self.shared, peer.agent());
        let purpose = Purpose::Lookup(peer, name);
        self.call(ticket, &agent, LOOKUP, Packed::plain(value), state, purpose);
    }

    fn cast(
        &mut self,
        ticket: Ticket,
        hold: Arc<Hold>,
        wanted: Description,
        state: Arc<CallState>,
    ) {
        let [interface, checksum] = wanted.values();
        let index = Value::Bytes(hold.reference().index.to_be_bytes().to_vec());
        let value = Value::List(vec![index, interface, checksum]);
        let agent = Hold::uncounted(&self.shared, hold.reference().owner.agent());
        self.call(ticket, &agent, DESCRIBE, Packed::plain(value), state, Purpose::Cast(hold));
    }

    // The node's agent, as a space calls it: names, what objects are, and that a call is cancelled.
    fn agent(&mut self, client: SpaceId, method: u16, value: &Value) -> Outcome {
        let fault = |number| Outcome::Fault(Value::Int(number));
        match (method, value) {
            (GET, Value::Bytes(name)) => match self.names.get(name) {
                Some(hold) => Outcome::Answer(Value::Ref(hold.reference())),
                None => fault(NO_NAME),
            },
            (LOOKUP, Value::List(list)) => match &list[..] {
                [Value::Bytes(name), interface, checksum] => match self.names.get(name) {
                    None => fault(NO_NAME),
                    Some(hold) => {
                        let reference = hold.reference();
                        let is_own = reference.owner == self.engine.id();
                        match !is_own || self.is_one(reference.index, interface, checksum) {
                            true => Outcome::Answer(Value::Ref(reference)),
                            false => fault(OTHER_INTERFACE),
                        }
                    }
                },
                _ => fault(ARGUMENT),
            },
            (DESCRIBE, Value::List(list)) => match &list[..] {
                [Value::Bytes(index), interface, checksum] => {
                    let index = index.first_chunk().map_or(0, |bytes| u64::from_be_bytes(*bytes));
                    match self.is_one(index, interface, checksum) {
                        true => Outcome::Answer(Value::Unit),
                        false => fault(OTHER_INTERFACE),
                    }
                }
                _ => fault(ARGUMENT),
            },
            // Nothing is bound or unbound from outside.
            (PUT | REMOVE, _) => fault(REFUSED),
            (CANCEL, Value::Int(number @ 1..)) => {
                self.cancelled(client, CallNo::new(*number as u64));
                Outcome::Answer(Value::Unit)
            }
            // A life began, or goes on in another session: there is nothing to say to it.
            (GREET, _) => Outcome::Answer(Value::Unit),
            (GET | LOOKUP | DESCRIBE | CANCEL, _) => fault(ARGUMENT),
            _ => Outcome::NoMethod,
        }
    }

    fn is_one(&self, index: u64, interface: &Value, checksum: &Value) -> bool {
        let values = self.objects.get(&index).map(|object| object.description.values());
        values.is_some_and(|values| values[0] == *interface && values[1] == *checksum)
    }

    /// Does all that the engine has to do, up to what is to be written.
    pub(crate) fn work(&mut self, now: Duration) {
        self.engine.go_on(now);
        if self.engine.has_answers() {
            self.all_answered();
        }
        if self.engine.has_jobs() {
            self.all_jobs();
        }
        if self.engine.has_given() {
            let mut turn = std::mem::take(&mut self.turn);
            self.engine.swap_turn(&mut turn);
            self.given(&mut turn, now);
            self.turn = turn;
        }
    }

    // Answers that the engine gave.
    fn all_answered(&mut self) {
        let mut answers = std::mem::take(&mut self.answers);
        self.engine.swap_answers(&mut answers);
        for (ticket, answered) in answers.drain(..) {
            self.answered(ticket, answered);
        }
        self.answers = answers;
    }

    // Jobs that the engine gave.
    fn all_jobs(&mut self) {
        let mut jobs = std::mem::take(&mut self.jobs);
        self.engine.swap_jobs(&mut jobs);
        for job in jobs.drain(..) {
            self.job(job);
        }
        self.jobs = jobs;
    }

    // What else the engine gave, of which nothing is left then.
    fn given(&mut self, turn: &mut Turn, now: Duration) {
        for (ticket, answered) in turn.answers.drain(..) {
            self.answered(ticket, answered);
        }
        for job in turn.jobs.drain(..) {
            self.job(job);
        }
        for index in turn.withdrawn.drain(..) {
            let object = self.objects.remove(&index).map(|object| object.place);
            if let Some(Place::Here(object)) = object {
                if self.withdrawn.is_empty() {
                    self.withdrawn_since = now;
                }
                self.withdrawn.push(object);
            }
        }
        for change in turn.changes.drain(..) {
            spans::changed(self.engine.id(), change.0, change.1);
            self.watchers.retain(|watcher| watcher.send(change).is_ok());
        }
        self.silent.append(&mut turn.silent);
        turn.renewed.drain(..).for_each(|peer| self.lose_all(peer));
    }

    // A peer began a new life: what is held of the one before is lost, and given back at once.
    fn lose_all(&mut self, peer: SpaceId) {
        let holds = self.others.remove(&peer).unwrap_or_default();
        for hold in holds.all.iter().filter_map(Weak::upgrade) {
            if hold.lose() {
                self.engine.release(hold.reference());
            }
        }
    }

    // A hold of another space's object is in the hand.
    fn is_held(&mut self, hold: &Arc<Hold>) {
        let owner = hold.reference().owner;
        if owner != self.engine.id() {
            self.others.entry(owner).or_default().keep(hold);
        }
    }

    fn answered(&mut self, ticket: Ticket, answered: Answered) {
        let packed = match answered {
            Answered::Replied { status, value } => Ok((status, self.packed(value))),
            Answered::Ended(reason) => Err(CallError::Ended(reason)),
            Answered::Down(space) => Err(CallError::Down(space)),
            Answered::Refused(space, why) => Err(CallError::Refused(space, why)),
            Answered::TooLarge => Err(CallError::TooLarge),
            Answered::Lost => Err(CallError::Lost),
            Answered::Busy => Err(CallError::Busy),
            Answered::NotCovered => Err(CallError::NotCovered),
        };
        let Some(OpenCall { state, purpose, .. }) = self.calls.remove(&ticket) else { return };
        let (status, packed) = match packed {
            Ok(replied) => replied,
            Err(error) => return self.complete(&state, Err(error)),
        };
        if let (Status::NoMethod, Purpose::Lookup(peer, name)) = (status, &purpose) {
            // A node of another kind, which knows names alone.
            let agent = Hold::uncounted(&self.shared, peer.agent());
            let name = Packed::plain(Value::Bytes(name.clone()));
            return self.call(ticket, &agent, GET, name, state, Purpose::Lookup(*peer, Vec::new()));
        }
        let completed = completed_of(status, packed, &purpose);
        self.complete(&state, completed);
    }

    // A value that came to the hand, with a hold of each of its references; further ones are given back.
    fn packed(&mut self, value: Value) -> Packed {
        let mut holds: Vec<Arc<Hold>> = Vec::new();
        for reference in value.references() {
            if holds.iter().any(|hold| hold.reference() == reference) {
                self.engine.release(reference);
            } else {
                let hold = Hold::held(&self.shared, reference);
                self.is_held(&hold);
                holds.push(hold);
            }
        }
        Packed { value, holds }
    }

    fn job(&mut self, job: Job) {
        let Job { job, client, call, target, method, value } = job;
        if target == 0 {
            let outcome = self.agent(client, method, &value);
            return self.engine.finish(job, outcome);
        }
        let mut holds: Vec<Arc<Hold>> = Vec::new();
        for reference in value.references() {
            if holds.iter().all(|hold| hold.reference() != reference) {
                holds.push(Hold::loan(&self.shared, reference));
            }
        }
        let packed = Packed { value, holds };
        let Some(object) = self.objects.get_mut(&target) else {
            packed.holds.iter().for_each(|hold| hold.end_loan(false));
            return self.engine.finish(job, Outcome::NoMethod);
        };
        let (caller, cancel) = ((client, call), self.spare.pop().unwrap_or_default());
        if self.engine.is_cancelled(client, call) {
            let _nobody = cancel.set();
        }
        self.cancels.insert(caller, cancel.clone());
        object.line.push_back(Work { end: End::Job { job, caller, cancel }, method, packed });
        self.start(target);
    }

    // The next call in an object's line begins, where the object is there. Those that were cancelled, and
    // those to an object that panicked, end at once.
    fn start(&mut self, index: u64) {
        while let Some(object) = self.objects.get_mut(&index)
            && !matches!(object.place, Place::Away(_))
            && let Some(Work { end, method, packed }) = object.line.pop_front()
        {
            let (loans, own) = match &end {
                End::Job { .. } => (packed.holds.clone(), None),
                End::Local(own) => (Vec::new(), Some(own.state.clone())),
            };
            let heard = end.heard();
            if heard.cancel().is_set() || matches!(object.place, Place::Broken) {
                let is_broken = matches!(object.place, Place::Broken);
                let served = if is_broken { Served::Panicked } else { Served::Cancelled };
                drop(packed);
                self.end(served, loans, end);
                continue;
            }
            let run = object.run;
            let Place::Here(there) = std::mem::replace(&mut object.place, Place::Away(own)) else {
                return;
            };
            let caller = match &end {
                End::Job { caller: (client, _), .. } => *client,
                End::Local(_) => self.engine.id(),
            };
            let arguments = Arguments { packed, shared: self.shared.clone() };
            let context = Context::new(caller, heard, self.shared.clone());
            let task = Task { index, object: there, method, arguments, context, loans, end };
            object.running = Some((task.running(), self.started + self.now));
            return self.begin(task, run);
        }
    }

    // A method begins, where it is to run.
    fn begin(&mut self, task: Task, run: Run) {
        self.running += 1;
        if !task.object.is_async(task.method) {
            return match self.pool_of(run) {
                Some(pool) => pool.run(task),
                None => self.steps.push_back(Step::Run(task)),
            };
        }
        let pool = self.pool_of(run).cloned();
        let later = task.later(&self.shared);
        match (pool, &self.spawner) {
            (Some(_), Some(spawner)) => {
                self.steps.push_back(Step::Spawn(later, spawner.clone()));
            }
            (Some(pool), None) => Turned::begin(later, Turner::Workers(pool)),
            (None, _) => Turned::begin(later, Turner::Thread(self.shared.clone())),
        }
    }

    // Who runs an object's methods, if it isn't the node's own thread.
    fn pool_of(&self, run: Run) -> Option<&Arc<Pool>> {
        self.pool.as_ref().filter(|_| run == Run::Pool)
    }

    /// What is to be done next on the node's own thread.
    pub(crate) fn next_step(&mut self) -> Option<Step> {
        self.steps.pop_front()
    }

    /// A method has run: its outcome goes to who called it.
    pub(crate) fn done(&mut self, done: Done) {
        let Done { index, object, served, loans, end } = done;
        self.running -= 1;
        let mut has_more = false;
        if let Some(slot) = self.objects.get_mut(&index) {
            slot.place = object.map_or(Place::Broken, Place::Here);
            slot.running = None;
            has_more = !slot.line.is_empty();
        }
        self.end(served, loans, end);
        if has_more {
            self.start(index);
        }
    }

    // What came of a call goes to who made it.
    fn end(&mut self, served: Served, loans: Vec<Arc<Hold>>, end: End) {
        match end {
            End::Job { job, caller, cancel } => {
                self.cancels.remove(&caller);
                self.keep(cancel);
                self.finish(job, served, loans);
            }
            End::Local(own) => {
                let completed = match served {
                    Served::Answer(packed) => Ok(packed),
                    Served::NoMethod => Err(CallError::NoMethod),
                    Served::BadArguments => Err(CallError::Fault(Fault::BadArguments)),
                    Served::Panicked => Err(CallError::Fault(Fault::Panicked)),
                    Served::Cancelled => Err(CallError::Fault(Fault::Cancelled)),
                };
                self.rouses.extend(own.answer(completed));
            }
        }
    }

    // Keeps what the next job can have, where nobody else has it and it wasn't used.
    fn keep(&mut self, mut cancel: Arc<Cancel>) {
        let is_unused = Arc::get_mut(&mut cancel).is_some_and(Cancel::is_unused);
        if is_unused && self.spare.len() < SPARE {
            self.spare.push(cancel);
        }
    }

    // What the method keeps of what it was lent is held before its job ends; the rest costs nothing.
    fn finish(&mut self, job: JobNo, served: Served, loans: Vec<Arc<Hold>>) {
        let fault = |number| Outcome::Fault(fault_value(number));
        let (outcome, holds) = match served {
            Served::Answer(Packed { value, holds }) => {
                let is_mine = |hold: &Arc<Hold>| Arc::ptr_eq(hold.shared(), &self.shared);
                match holds.iter().all(is_mine) {
                    true => (Outcome::Answer(value), holds),
                    false => (fault(LOST), holds),
                }
            }
            Served::NoMethod => (Outcome::NoMethod, Vec::new()),
            Served::BadArguments => (fault(BAD_ARGUMENTS), Vec::new()),
            Served::Panicked => (fault(PANICKED), Vec::new()),
            Served::Cancelled => (fault(CANCELLED), Vec::new()),
        };
        let dropped = dropped(holds);
        for loan in loans {
            let is_kept = Arc::strong_count(&loan) > 1;
            let is_held = is_kept && self.engine.hold(loan.reference()).is_ok();
            loan.end_loan(is_held);
            if is_held {
                self.is_held(&loan);
            }
        }
        self.engine.finish(job, outcome);
        dropped.into_iter().for_each(|reference| self.engine.release(reference));
    }

    /// Whether there is anything to do at the end of a turn.
    pub(crate) fn has_to_leave(&self) -> bool {
        !self.withdrawn.is_empty() || self.ahead.is_short()
    }

    /// The end of a turn: objects that are to be dropped once nothing of the node is borrowed, where no worker drops them.
    pub(crate) fn leave(&mut self, now: Duration) -> Vec<Box<dyn Exported>> {
        self.export_ahead();
        self.drop_withdrawn(now, false);
        if self.has_thread() { Vec::new() } else { std::mem::take(&mut self.withdrawn) }
    }

    /// Workers drop the objects that were withdrawn: some at once, so that a worker is woken less often; all of them
    /// where the node's thread is about to sleep.
    pub(crate) fn drop_withdrawn(&mut self, now: Duration, sleeps: bool) {
        let Some(pool) = &self.pool else { return };
        let is_late = now.saturating_sub(self.withdrawn_since) >= DROP_WAITS;
        if !self.withdrawn.is_empty() && (sleeps || is_late || self.withdrawn.len() >= DROPS) {
            pool.drop_objects(self.withdrawn.drain(..));
        }
    }

    /// The node ends: nobody waits for a call any more.
    pub(crate) fn stop(&mut self, commands: &[Command]) {
        for command in commands {
            match command {
                Command::Call { state, .. }
                | Command::Lookup { state, .. }
                | Command::Cast { state, .. } => {
                    self.complete(state, Err(CallError::NodeStopped));
                }
                _ => {}
            }
        }
        let open: Vec<OpenCall> = self.calls.drain().map(|(_, open)| open).collect();
        for OpenCall { state, .. } in open {
            self.complete(&state, Err(CallError::NodeStopped));
        }
        for object in self.objects.values_mut() {
            for work in object.line.drain(..) {
                if let End::Local(own) = work.end {
                    self.rouses.extend(own.answer(Err(CallError::NodeStopped)));
                }
            }
            // One that still runs isn't waited for.
            if let Place::Away(Some(state)) = &object.place {
                self.rouses.extend(state.complete(Err(CallError::NodeStopped)));
            }
        }
    }
}

// Drops holds. Of those that nobody else has it answers the references that were in the hand, which are to be given back
// right away: so that no command of their drop does.
fn dropped(holds: Vec<Arc<Hold>>) -> Vec<Reference> {
    if holds.is_empty() {
        return Vec::new();
    }
    let is_last = |hold: &Arc<Hold>| Arc::strong_count(hold) == 1 && hold.lose();
    holds.into_iter().filter(is_last).map(|hold| hold.reference()).collect()
}

fn status_of(outcome: Outcome) -> (Status, Value) {
    match outcome {
        Outcome::Answer(value) => (Status::Answered, value),
        Outcome::Fault(value) => (Status::Fault, value),
        Outcome::NoMethod => (Status::NoMethod, Value::Unit),
    }
}

// What a reply's status and value come to.
fn completed_of(status: Status, packed: Packed, purpose: &Purpose) -> Completed {
    match (status, purpose) {
        (Status::Answered, Purpose::Cast(hold)) => {
            Ok(Packed { value: Value::Ref(hold.reference()), holds: vec![hold.clone()] })
        }
        (Status::Answered, _) => Ok(packed),
        (Status::Fault, Purpose::Method | Purpose::Try) => {
            Err(CallError::Fault(method_fault(packed.value)))
        }
        (Status::Fault, _) => Err(CallError::Fault(agent_fault(packed.value))),
        (Status::NoMethod, _) => Err(CallError::NoMethod),
        (Status::Lost, _) => Err(CallError::Lost),
    }
}

fn method_fault(value: Value) -> Fault {
    let number = match &value {
        Value::List(list) => match list[..] {
            [Value::Int(number), Value::Unit] => number,
            _ => 0,
        },
        _ => 0,
    };
    match number {
        BAD_ARGUMENTS => Fault::BadArguments,
        PANICKED => Fault::Panicked,
        TOO_LARGE => Fault::TooLarge,
        LOST => Fault::Lost,
        CANCELLED => Fault::Cancelled,
        _ => Fault::Other(value),
    }
}

fn agent_fault(value: Value) -> Fault {
    match value {
        Value::Int(ARGUMENT) => Fault::BadArguments,
        Value::Int(NO_NAME) => Fault::NoName,
        Value::Int(OTHER_INTERFACE) => Fault::OtherInterface,
        value => Fault::Other(value),
    }
}
