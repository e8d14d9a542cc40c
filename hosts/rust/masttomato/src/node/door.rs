//! Where strangers become known: a thread that accepts connections and has both ends show who they are, so that neither
//! silence nor signatures hold the node up. It knows no more of them than that; their hellos are heard by the node.

use super::peers;
use super::seal::{Seal, Sealer, Wire, is_for_later};
use super::shared::Shared;
use super::spans;
use crate::engine::{Doing, Flaw, TurnedAway, Why};
use mio::net::{TcpListener, TcpStream};
use mio::{Events, Interest, Poll, Token, Waker};
use std::collections::HashMap;
use std::io::{self, Read};
use std::net::Shutdown;
use std::sync::{Arc, Mutex, MutexGuard, PoisonError};
use std::thread::JoinHandle;
use std::time::{Duration, Instant};
use std::{mem, thread};

const WAKER: Token = Token(0);
const LISTENER: Token = Token(1);
const FIRST: usize = 2;
/// So many that came are listened to at once, for so long each.
const MOST: usize = 64;
const WAITS: Duration = Duration::from_secs(5);
/// Who is turned away has so long to hear it.
const ENDS: Duration = Duration::from_millis(500);

/// A connection that the node opened, and the line of peers that it is to.
struct Asked {
    stream: TcpStream,
    dial: usize,
    line: peers::Line,
}

/// What came of a connection.
pub(crate) enum Came {
    /// Both ends know who the other one is. It took so long.
    Shaken { wire: Wire, dial: Option<usize>, waited: Duration },
    /// One that the node opened didn't come to that.
    Refused { dial: usize, flaw: Flaw },
}

#[derive(Default)]
struct Line {
    asked: Vec<Asked>,
    came: Vec<Came>,
    turned_away: u64,
    last: Option<TurnedAway>,
    is_closed: bool,
}

type Locked<'a> = MutexGuard<'a, Line>;

fn locked(line: &Mutex<Line>) -> Locked<'_> {
    line.lock().unwrap_or_else(PoisonError::into_inner)
}

/// A node's door. Its thread ends with it.
pub(crate) struct Door {
    line: Arc<Mutex<Line>>,
    waker: Waker,
    thread: Option<JoinHandle<()>>,
}

impl Door {
    pub(crate) fn open(
        sealer: Arc<dyn Sealer>,
        mut listener: Option<TcpListener>,
        shared: Arc<Shared>,
    ) -> io::Result<Door> {
        let poll = Poll::new()?;
        let waker = Waker::new(poll.registry(), WAKER)?;
        if let Some(listener) = &mut listener {
            poll.registry().register(listener, LISTENER, Interest::READABLE)?;
        }
        let line = Arc::default();
        let name = format!("masttomato-{}-door", shared.id());
        let keeper = Keeper {
            poll,
            sealer,
            listener,
            shared,
            line: Arc::clone(&line),
            strangers: HashMap::new(),
            next_token: FIRST,
        };
        let thread = thread::Builder::new().name(name).spawn(move || keeper.keep())?;
        Ok(Door { line, waker, thread: Some(thread) })
    }

    /// A connection that the node opened goes through the door.
    pub(crate) fn ask(&self, stream: TcpStream, dial: usize, line: peers::Line) {
        locked(&self.line).asked.push(Asked { stream, dial, line });
        // A waker that fails has nobody to wake.
        let _woken = self.waker.wake();
    }

    /// What came of connections since this was asked last.
    pub(crate) fn take(&self) -> Vec<Came> {
        mem::take(&mut locked(&self.line).came)
    }

    /// How many were turned away since this was asked last, and the last of those of which it is known why.
    pub(crate) fn take_turned_away(&self) -> (u64, Option<TurnedAway>) {
        let mut line = locked(&self.line);
        (mem::take(&mut line.turned_away), line.last.take())
    }
}

impl Drop for Door {
    fn drop(&mut self) {
        locked(&self.line).is_closed = true;
        let _woken = self.waker.wake();
        let _ended = self.thread.take().map(JoinHandle::join);
    }
}

// Who isn't known yet.
struct Stranger {
    wire: Wire,
    dial: Option<usize>,
    since: Instant,
    until: Instant,
    // It was turned away, and hears of it.
    is_over: bool,
}

impl Stranger {
    // Whether its time here is over: it has gone, or has ended what it had to say.
    fn step(&mut self) -> Result<bool, Flaw> {
        if !self.is_over {
            return self.wire.shake();
        }
        let mut thrown_away = [0; 1_024];
        loop {
            match self.wire.stream.read(&mut thrown_away) {
                Ok(0) => return Ok(true),
                Ok(_) => {}
                Err(error) => return Ok(!is_for_later(&error)),
            }
        }
    }
}

/// What is on the door's thread.
struct Keeper {
    poll: Poll,
    sealer: Arc<dyn Sealer>,
    listener: Option<TcpListener>,
    shared: Arc<Shared>,
    line: Arc<Mutex<Line>>,
    strangers: HashMap<usize, Stranger>,
    next_token: usize,
}

impl Keeper {
    fn keep(mut self) {
        let mut events = Events::with_capacity(128);
        let desk = self.shared.desks().open(format!("masttomato-{}-door", self.shared.id()));
        loop {
            let now = Instant::now();
            let next = self.strangers.values().map(|stranger| stranger.until).min();
            let limit = next.map(|until| until.saturating_duration_since(now));
            desk.does(Doing::Rests, Instant::now());
            // A poll that is interrupted is one that nothing came to.
            let _polled = self.poll.poll(&mut events, limit);
            desk.does(Doing::Works, Instant::now());
            if !self.take_asked() {
                return;
            }
            for event in &events {
                match event.token() {
                    WAKER => {}
                    LISTENER => self.accept(),
                    Token(token) => self.step(token),
                }
            }
            self.end_late();
        }
    }

    // Takes what the node opened: whether the door is still open.
    fn take_asked(&mut self) -> bool {
        let asked = {
            let mut line = locked(&self.line);
            if line.is_closed {
                return false;
            }
            mem::take(&mut line.asked)
        };
        for Asked { stream, dial, line } in asked {
            let seal = self.sealer.connects(&line);
            self.begin(stream, seal, Some(dial));
        }
        true
    }

    fn accept(&mut self) {
        while let Some(Ok((stream, _))) = self.listener.as_ref().map(TcpListener::accept) {
            if self.here() >= MOST {
                locked(&self.line).turned_away += 1;
                continue;
            }
            let seal = self.sealer.accepts();
            self.begin(stream, seal, None);
        }
    }

    // How many of those that came are here, or were let in and the node hasn't taken them yet.
    fn here(&self) -> usize {
        let came = self.strangers.values().filter(|stranger| stranger.dial.is_none()).count();
        came + locked(&self.line).came.len()
    }

    fn begin(
        &mut self,
        mut stream: TcpStream,
        seal: Result<Box<dyn Seal>, Flaw>,
        dial: Option<usize>,
    ) {
        let token = self.next_token;
        self.next_token += 1;
        let both = Interest::READABLE | Interest::WRITABLE;
        let registered = self.poll.registry().register(&mut stream, Token(token), both);
        let (Ok(seal), Ok(())) = (seal, registered) else {
            return self.refuse(dial, None, Flaw::Broken);
        };
        let since = Instant::now();
        let (wire, until) = (Wire::sealed(stream, seal), since + WAITS);
        self.strangers.insert(token, Stranger { wire, dial, since, until, is_over: false });
        self.step(token);
    }

    fn step(&mut self, token: usize) {
        let Some(stranger) = self.strangers.get_mut(&token) else { return };
        match stranger.step() {
            Ok(false) => {}
            Ok(true) if stranger.is_over => drop(self.strangers.remove(&token)),
            Ok(true) => self.let_in(token),
            Err(flaw) => self.turn_away(token, flaw),
        }
    }

    // Both ends know who they are: the node goes on.
    fn let_in(&mut self, token: usize) {
        let Some(Stranger { mut wire, dial, since, .. }) = self.strangers.remove(&token) else {
            return;
        };
        if self.poll.registry().deregister(&mut wire.stream).is_err() {
            return self.refuse(dial, None, Flaw::Broken);
        }
        self.tell(Came::Shaken { wire, dial, waited: since.elapsed() });
    }

    // What was written to it is let arrive: a socket that is closed while more comes loses that.
    fn turn_away(&mut self, token: usize, flaw: Flaw) {
        let Some(stranger) = self.strangers.get_mut(&token) else { return };
        let dial = stranger.dial.take();
        let from = stranger.wire.stream.peer_addr().ok();
        stranger.is_over = true;
        stranger.until = stranger.until.min(Instant::now() + ENDS);
        if stranger.wire.stream.shutdown(Shutdown::Write).is_err()
            || matches!(stranger.step(), Ok(true))
        {
            self.strangers.remove(&token);
        }
        self.refuse(dial, from, flaw);
    }

    fn refuse(&mut self, dial: Option<usize>, from: Option<std::net::SocketAddr>, flaw: Flaw) {
        if let Some(dial) = dial {
            return self.tell(Came::Refused { dial, flaw });
        }
        let mut line = locked(&self.line);
        line.turned_away += 1;
        if let Some(from) = from {
            let why = Why::Certificate(flaw);
            spans::turned_away(self.shared.id(), from, why);
            line.last = Some(TurnedAway { from, why });
        }
    }

    fn tell(&self, came: Came) {
        locked(&self.line).came.push(came);
        self.shared.rouse();
    }

    // Those whose time is up.
    fn end_late(&mut self) {
        let now = Instant::now();
        let late = self.strangers.iter().filter(|(_, stranger)| stranger.until <= now);
        let late: Vec<usize> = late.map(|(token, _)| *token).collect();
        for token in late {
            let Some(stranger) = self.strangers.remove(&token) else { continue };
            if !stranger.is_over {
                let from = stranger.wire.stream.peer_addr().ok();
                self.refuse(stranger.dial, from, Flaw::Late);
            }
        }
    }
}
