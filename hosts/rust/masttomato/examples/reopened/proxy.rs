//! What stands between two processes, and can cut one off from the other.

use std::io::{self, Read, Write};
use std::net::{Shutdown, TcpListener, TcpStream};
use std::sync::{Arc, Mutex, MutexGuard, PoisonError};
use std::thread::{self, JoinHandle};

#[derive(Default)]
struct State {
    blocks: bool,
    has_ended: bool,
    streams: Vec<TcpStream>,
}

impl State {
    // Cuts all connections, whose threads end then.
    fn cut(&mut self) {
        for stream in self.streams.drain(..) {
            let _was_closed = stream.shutdown(Shutdown::Both);
        }
    }
}

pub struct Proxy {
    pub address: String,
    state: Arc<Mutex<State>>,
    accepts: JoinHandle<()>,
}

fn locked(state: &Mutex<State>) -> MutexGuard<'_, State> {
    state.lock().unwrap_or_else(PoisonError::into_inner)
}

impl Proxy {
    pub fn to(target: String) -> io::Result<Proxy> {
        let listener = TcpListener::bind("127.0.0.1:0")?;
        let address = listener.local_addr()?.to_string();
        let state: Arc<Mutex<State>> = Arc::default();
        let shared = state.clone();
        let accepts = thread::spawn(move || {
            let mut carriers = Vec::new();
            for near in listener.incoming().flatten() {
                let mut state = locked(&shared);
                if state.has_ended {
                    break;
                }
                if !state.blocks {
                    // One that can't be had is tried again by who connected.
                    let begun = TcpStream::connect(&target).and_then(|far| carry(near, far));
                    if let Ok((streams, threads)) = begun {
                        state.streams.extend(streams);
                        carriers.extend(threads);
                    }
                }
            }
            for carrier in carriers {
                let _ended = carrier.join();
            }
        });
        Ok(Proxy { address, state, accepts })
    }

    /// Cuts all connections, and lets nobody through.
    pub fn block(&self) {
        let mut state = locked(&self.state);
        state.blocks = true;
        state.cut();
    }

    /// Lets everybody through.
    pub fn allow(&self) {
        locked(&self.state).blocks = false;
    }

    /// Ends, with all its threads.
    pub fn end(self) {
        {
            let mut state = locked(&self.state);
            state.has_ended = true;
            state.cut();
        }
        // Who waits for connections is woken by one more.
        let _woken = TcpStream::connect(&self.address);
        let _ended = self.accepts.join();
    }
}

// A thread each way, and what to cut them by.
fn carry(near: TcpStream, far: TcpStream) -> io::Result<([TcpStream; 2], [JoinHandle<()>; 2])> {
    near.set_nodelay(true)?;
    far.set_nodelay(true)?;
    let streams = [near.try_clone()?, far.try_clone()?];
    let other = (far.try_clone()?, near.try_clone()?);
    let threads = [(near, far), other].map(|(mut from, mut to)| {
        thread::spawn(move || {
            let mut piece = [0; 4_096];
            while let Ok(count @ 1..) = from.read(&mut piece) {
                if to.write_all(&piece[..count]).is_err() {
                    break;
                }
            }
            let _was_closed = (from.shutdown(Shutdown::Both), to.shutdown(Shutdown::Both));
        })
    });
    Ok((streams, threads))
}
