//! A space that says hello and speaks in records over a socket of std's, with an engine and no node: what
//! another kind of program would be.

use crate::things::{SOON, id};
use masttomato::engine::{Answered, Engine, HELLO, Hello, Life, Settings, Ticket, WINDOW, World};
use masttomato::space::{Outcome, Reference, Value};
use std::io::{Read, Write};
use std::net::{SocketAddr, TcpListener, TcpStream};
use std::time::{Duration, Instant};

pub struct Plain {
    pub engine: Engine,
    stream: TcpStream,
    peer: u16,
    started: Instant,
}

pub fn hello(number: u16, spaces: u16, life: u64) -> Hello {
    let (space, spaces, life) = (id(number), id(spaces), Life::only(life));
    Hello { space, spaces, world: World::default(), life, window: WINDOW, refused: None }
}

pub fn read_hello(stream: &mut TcpStream) -> Hello {
    let mut bytes = [0; HELLO];
    stream.read_exact(&mut bytes).expect("a hello");
    Hello::from_bytes(&bytes).expect("a hello")
}

impl Plain {
    fn over(stream: TcpStream, number: u16, peer: &Hello) -> Plain {
        let settings = Settings::new(id(number), peer.spaces);
        let mut engine = Engine::new(settings, Duration::ZERO).expect("memory");
        engine.connected(peer.space, peer.life, Duration::ZERO).expect("its first life");
        stream.set_read_timeout(Some(Duration::from_millis(3))).expect("a socket");
        Plain { engine, stream, peer: peer.space.get(), started: Instant::now() }
    }

    /// Connects to a node.
    pub fn connect(number: u16, spaces: u16, address: SocketAddr) -> Plain {
        let mut stream = TcpStream::connect(address).expect("a node");
        stream.write_all(&hello(number, spaces, 50).to_bytes()).expect("a node");
        let peer = read_hello(&mut stream);
        Plain::over(stream, number, &peer)
    }

    /// Takes the connection of a node.
    pub fn accept(number: u16, listener: &TcpListener) -> Plain {
        let (mut stream, _) = listener.accept().expect("a node");
        let peer = read_hello(&mut stream);
        let own = hello(number, peer.spaces.get(), 50);
        stream.write_all(&own.to_bytes()).expect("a node");
        Plain::over(stream, number, &peer)
    }

    /// One turn; jobs are ended by a function of their target, method and argument. What calls came to.
    pub fn turn(
        &mut self,
        serve: &mut impl FnMut(&mut Engine, Reference, u16, Value) -> Outcome,
    ) -> Vec<(Ticket, Answered)> {
        let now = self.started.elapsed();
        let mut piece = [0; 4_096];
        if let Ok(count @ 1..) = self.stream.read(&mut piece) {
            self.engine.bytes(id(self.peer), &piece[..count], now).expect("an honest node");
        }
        let turn = self.engine.work(now);
        for job in turn.jobs {
            let target = Reference { owner: self.engine.id(), index: job.target };
            let outcome = serve(&mut self.engine, target, job.method, job.value);
            self.engine.finish(job.job, outcome);
        }
        self.engine.fill(now);
        let out = self.engine.output(id(self.peer));
        self.stream.write_all(out.left()).expect("a node");
        out.advance(usize::MAX);
        turn.answers
    }

    /// Calls, and waits for what comes of it.
    pub fn call(&mut self, target: Reference, method: u16, value: Value) -> Answered {
        let ticket = Ticket(1);
        self.engine.call(ticket, target, method, value);
        let end = Instant::now() + SOON;
        while Instant::now() < end {
            let answers = self.turn(&mut |_, _, _, _| Outcome::NoMethod);
            if let Some((_, answered)) = answers.into_iter().next() {
                return answered;
            }
        }
        panic!("no answer comes");
    }
}
