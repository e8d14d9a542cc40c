//! Calls between processes over TCP on 127.0.0.1: what `bench/tcp` measures.
//!
//!     tcp_calls KIND CALLERS CALLS [AT_ONCE]
//!
//! The first process has an object, and each caller is a thread with a space and a connection of its
//! own. KIND is `null`, a call with no argument whose reply is waited for, or `fresh`, where each
//! call passes a reference to a new object, which the caller then gives back. AT_ONCE, 1 where it
//! isn't named, is how many calls of a caller wait for their replies at once. It prints how many
//! calls were answered in a second, after a fifth as many that aren't counted.
//!
//! A space and its connections are worked by one thread, which looks at them for some 50
//! microseconds before it waits. TCP loses nothing while a connection stands, so nothing is
//! transmitted again.

use masttomato::space::{
    CallNo, CallResult, Due, Limits, Outcome, Reference, Space, SpaceId, Value,
};
use std::env;
use std::error::Error;
use std::io::{self, BufRead, BufReader, ErrorKind, Read, Write};
use std::net::{Ipv4Addr, TcpListener, TcpStream};
use std::process::{Command, Stdio};
use std::sync::{Arc, Barrier};
use std::thread;
use std::time::{Duration, Instant};

type Fallible<T> = Result<T, Box<dyn Error + Send + Sync>>;

const OWNER: u16 = 1;

/// Who waits looks for so long before it rests; but where that was in vain, so many times not at all:
/// looking helps while the other process runs beside this one, and takes its time where it can't.
const LOOKS: Duration = Duration::from_micros(50);
const RESTS: u32 = 20;

fn main() -> Fallible<()> {
    let words: Vec<String> = env::args().skip(1).collect();
    match &words.iter().map(String::as_str).collect::<Vec<_>>()[..] {
        ["serve", callers] => serve(callers.parse()?),
        [kind, callers, calls] => measure(kind, callers.parse()?, calls.parse()?, 1),
        [kind, callers, calls, at_once] => {
            measure(kind, callers.parse()?, calls.parse()?, at_once.parse()?)
        }
        _ => Err("tcp_calls null|fresh CALLERS CALLS [AT_ONCE]".into()),
    }
}

fn space_id(number: u16) -> SpaceId {
    SpaceId::new(number).expect("1 to 32")
}

fn new_space(number: u16, callers: u16) -> Fallible<Space> {
    let limits = Limits::new(64, 255).expect("limits");
    Ok(Space::new(space_id(number), space_id(callers + 1), limits)?)
}

/// A connection to a peer that is looked at without waiting.
struct Wire {
    peer: SpaceId,
    stream: TcpStream,
    piece: Vec<u8>,
    rests: u32,
}

impl Wire {
    fn new(peer: SpaceId, stream: TcpStream) -> Fallible<Wire> {
        stream.set_nodelay(true)?;
        stream.set_nonblocking(true)?;
        Ok(Wire { peer, stream, piece: vec![0; 65_536], rests: 0 })
    }

    // Takes what has come: whether that is anything.
    fn take(&mut self, space: &mut Space) -> Fallible<bool> {
        match self.stream.read(&mut self.piece) {
            Ok(length) => self.bring(space, length).map(|()| true),
            Err(error) if error.kind() == ErrorKind::WouldBlock => Ok(false),
            Err(error) => Err(error.into()),
        }
    }

    // Waits for something to come, and takes it.
    fn wait(&mut self, space: &mut Space) -> Fallible<()> {
        let since = Instant::now();
        while self.rests == 0 && since.elapsed() < LOOKS {
            if self.take(space)? {
                return Ok(());
            }
        }
        self.rests = self.rests.checked_sub(1).unwrap_or(RESTS);
        self.stream.set_nonblocking(false)?;
        let length = self.stream.read(&mut self.piece)?;
        self.stream.set_nonblocking(true)?;
        self.bring(space, length)
    }

    // Has a piece of the stream arrive, acts on it, and settles and gives up what can be. The end of
    // the stream is an error.
    fn bring(&mut self, space: &mut Space, length: usize) -> Fallible<()> {
        if length == 0 {
            return Err("the connection has ended".into());
        }
        space.push(self.peer, &self.piece[..length])?;
        while let Some(arrived) = space.arrive_next() {
            arrived?;
        }
        while space.act(self.peer).is_ok() {}
        while space.settle().is_ok() {}
        while space.clean().is_ok() {}
        Ok(())
    }

    // Transmits what was never transmitted. An Ack alone waits for the next item, which says it too.
    fn give(&mut self, space: &mut Space) -> Fallible<()> {
        if space.due(self.peer) != Due::New {
            return Ok(());
        }
        let frames = space.transmit(self.peer)?;
        let mut left = frames.as_bytes();
        while !left.is_empty() {
            match self.stream.write(left) {
                Ok(length) => left = &left[length..],
                Err(error) if error.kind() == ErrorKind::WouldBlock => thread::yield_now(),
                Err(error) => return Err(error.into()),
            }
        }
        Ok(())
    }
}

// The owner's process: its agent answers a reference to its object, which answers unit and keeps
// nothing that it is passed.
fn serve(callers: u16) -> Fallible<()> {
    let listener = TcpListener::bind((Ipv4Addr::LOCALHOST, 0))?;
    println!("{}", listener.local_addr()?.port());
    let mut space = new_space(OWNER, callers)?;
    let object = space.export()?;
    let mut wires = Vec::new();
    for _ in 0..callers {
        let (mut stream, _) = listener.accept()?;
        let mut number = [0; 2];
        stream.read_exact(&mut number)?;
        wires.push(Wire::new(space_id(u16::from_be_bytes(number)), stream)?);
    }
    while !wires.is_empty() {
        // A caller that has ended ends its connection.
        match &mut wires[..] {
            [wire] => {
                if wire.wait(&mut space).is_err() {
                    return Ok(());
                }
            }
            _ => {
                let taken = take_any(&mut wires, &mut space);
                wires.retain(|wire| !taken.contains(&wire.peer));
            }
        }
        while let Ok(job) = space.claim() {
            let is_agent = job.target == 0;
            let value = if is_agent { Value::Ref(object) } else { Value::Unit };
            space.finish(job.job, &Outcome::Answer(value))?;
        }
        while space.clean().is_ok() {}
        for wire in &mut wires {
            wire.give(&mut space)?;
        }
    }
    Ok(())
}

// Takes what has come over any of these connections, and waits where nothing has: which have ended.
fn take_any(wires: &mut [Wire], space: &mut Space) -> Vec<SpaceId> {
    let since = Instant::now();
    loop {
        let looks: Vec<_> = wires.iter_mut().map(|wire| (wire.peer, wire.take(space))).collect();
        if looks.iter().any(|(_, taken)| !matches!(taken, Ok(false))) {
            let ended = looks.into_iter().filter(|(_, taken)| taken.is_err());
            return ended.map(|(peer, _)| peer).collect();
        }
        if since.elapsed() > LOOKS {
            thread::sleep(LOOKS);
        }
    }
}

fn measure(kind: &str, callers: u16, calls: u64, at_once: usize) -> Fallible<()> {
    let mut command = Command::new(env::current_exe()?);
    let mut server =
        command.args(["serve", &callers.to_string()]).stdout(Stdio::piped()).spawn()?;
    let mut line = String::new();
    BufReader::new(server.stdout.take().expect("a pipe")).read_line(&mut line)?;
    let port: u16 = line.trim().parse()?;
    let ready = Arc::new(Barrier::new(usize::from(callers) + 1));
    let is_fresh = kind == "fresh";
    let threads: Vec<_> = (1..=callers)
        .map(|number| {
            let ready = ready.clone();
            thread::spawn(move || -> Fallible<()> {
                let mut caller = Caller::new(number + 1, callers, port, is_fresh)?;
                caller.make(calls / 5, at_once)?;
                ready.wait();
                caller.make(calls, at_once)?;
                ready.wait();
                Ok(())
            })
        })
        .collect();
    ready.wait();
    let started = Instant::now();
    ready.wait();
    let taken = started.elapsed();
    for thread in threads {
        thread.join().expect("a caller's thread")?;
    }
    server.wait()?;
    println!("{:.0}", (calls * u64::from(callers)) as f64 / taken.as_secs_f64());
    Ok(())
}

/// A thread that calls, with its space.
struct Caller {
    space: Space,
    wire: Wire,
    object: Reference,
    is_fresh: bool,
}

impl Caller {
    fn new(number: u16, callers: u16, port: u16, is_fresh: bool) -> Fallible<Caller> {
        let mut stream = TcpStream::connect((Ipv4Addr::LOCALHOST, port))?;
        stream.write_all(&number.to_be_bytes())?;
        let space = new_space(number, callers)?;
        let wire = Wire::new(space_id(OWNER), stream)?;
        let mut caller = Caller { space, wire, object: space_id(OWNER).agent(), is_fresh };
        let call = caller.space.call(caller.object, 0, &Value::Unit)?;
        while !caller.space.reply_ready(call) {
            caller.wire.give(&mut caller.space)?;
            caller.wire.wait(&mut caller.space)?;
        }
        match caller.space.take_reply(call)? {
            CallResult::Replied { value: Value::Ref(object), .. } => caller.object = object,
            other => return Err(format!("{other:?}").into()),
        }
        Ok(caller)
    }

    // Makes so many calls, of which so many wait at once, and takes their replies.
    fn make(&mut self, calls: u64, at_once: usize) -> Fallible<()> {
        let mut waiting = Vec::with_capacity(at_once);
        let (mut made, mut answered) = (0, 0);
        while answered < calls {
            while waiting.len() < at_once && made < calls {
                waiting.push(self.call()?);
                made += 1;
            }
            self.wire.give(&mut self.space)?;
            self.wire.wait(&mut self.space)?;
            let space = &mut self.space;
            waiting.retain(|call| {
                let is_answered = space.reply_ready(*call) && space.take_reply(*call).is_ok();
                answered += u64::from(is_answered);
                !is_answered
            });
            self.withdraw()?;
        }
        Ok(())
    }

    fn call(&mut self) -> Fallible<CallNo> {
        if !self.is_fresh {
            return Ok(self.space.call(self.object, 0, &Value::Unit)?);
        }
        let fresh = self.space.export()?;
        let call = self.space.call(self.object, 0, &Value::Ref(fresh))?;
        self.space.release(fresh)?;
        Ok(call)
    }

    // Withdraws the objects that nobody uses any more.
    fn withdraw(&mut self) -> io::Result<()> {
        if self.is_fresh {
            while let Some(index) = self.space.work().withdraw {
                self.space.withdraw(index).map_err(io::Error::other)?;
            }
        }
        Ok(())
    }
}
