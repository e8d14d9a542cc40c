//! A proxy between two nodes that cuts connections, stalls them, and lets nobody through.

use std::io::{Read, Write};
use std::net::{Shutdown, SocketAddr, TcpListener, TcpStream};
use std::sync::atomic::{AtomicBool, Ordering::SeqCst};
use std::sync::{Arc, Mutex};
use std::thread;
use std::time::Duration;

#[derive(Clone)]
pub struct Proxy {
    pub address: SocketAddr,
    is_closed: Arc<AtomicBool>,
    stalls: Arc<AtomicBool>,
    streams: Arc<Mutex<Vec<TcpStream>>>,
}

impl Proxy {
    pub fn to(target: SocketAddr) -> Proxy {
        let listener = TcpListener::bind("127.0.0.1:0").expect("a port");
        let proxy = Proxy {
            address: listener.local_addr().expect("its address"),
            is_closed: Arc::default(),
            stalls: Arc::default(),
            streams: Arc::default(),
        };
        let all = proxy.clone();
        thread::spawn(move || {
            for near in listener.incoming().flatten() {
                if all.is_closed.load(SeqCst) {
                    continue;
                }
                if let Ok(far) = TcpStream::connect(target) {
                    all.carry(near, far);
                }
            }
        });
        proxy
    }

    fn carry(&self, near: TcpStream, far: TcpStream) {
        for stream in [&near, &far] {
            stream.set_nodelay(true).expect("a socket");
            self.streams.lock().unwrap().push(stream.try_clone().expect("a socket"));
        }
        let other = (far.try_clone().expect("a socket"), near.try_clone().expect("a socket"));
        for (mut from, mut to) in [(near, far), other] {
            let stalls = self.stalls.clone();
            thread::spawn(move || {
                let mut piece = [0; 4_096];
                while let Ok(count @ 1..) = from.read(&mut piece) {
                    while stalls.load(SeqCst) {
                        thread::sleep(Duration::from_millis(5));
                    }
                    if to.write_all(&piece[..count]).is_err() {
                        break;
                    }
                }
                let _was_closed = (from.shutdown(Shutdown::Both), to.shutdown(Shutdown::Both));
            });
        }
    }

    /// Cuts all connections, wherever their bytes are.
    pub fn cut(&self) {
        for stream in self.streams.lock().unwrap().drain(..) {
            let _was_closed = stream.shutdown(Shutdown::Both);
        }
    }

    /// Cuts all connections, and lets nobody through any more.
    pub fn close(&self) {
        self.is_closed.store(true, SeqCst);
        self.cut();
    }

    /// Lets everybody through again.
    pub fn open(&self) {
        self.is_closed.store(false, SeqCst);
    }

    pub fn stall(&self, stalls: bool) {
        self.stalls.store(stalls, SeqCst);
    }
}
