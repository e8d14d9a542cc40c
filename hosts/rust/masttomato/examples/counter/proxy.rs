//! What stands between two processes and cuts their connection, wherever its bytes are.

use std::io::{self, Read, Write};
use std::net::{Shutdown, TcpListener, TcpStream};
use std::sync::Arc;
use std::sync::atomic::{AtomicU32, Ordering::SeqCst};
use std::thread;

/// After so many bytes each way a connection is cut.
const BYTES: usize = 701;

pub struct Proxy {
    pub address: String,
    cuts: Arc<AtomicU32>,
}

impl Proxy {
    pub fn to(target: String) -> io::Result<Proxy> {
        let listener = TcpListener::bind("127.0.0.1:0")?;
        let address = listener.local_addr()?.to_string();
        let cuts = Arc::new(AtomicU32::new(0));
        let counted = cuts.clone();
        thread::spawn(move || {
            for near in listener.incoming().flatten() {
                if let Ok(far) = TcpStream::connect(&target) {
                    let _ended = carry(near, far, &counted);
                }
            }
        });
        Ok(Proxy { address, cuts })
    }

    pub fn cuts(&self) -> u32 {
        self.cuts.load(SeqCst)
    }
}

fn carry(near: TcpStream, far: TcpStream, cuts: &Arc<AtomicU32>) -> io::Result<()> {
    near.set_nodelay(true)?;
    far.set_nodelay(true)?;
    let other = (far.try_clone()?, near.try_clone()?);
    for (mut from, mut to) in [(near, far), other] {
        let cuts = cuts.clone();
        thread::spawn(move || {
            let (mut piece, mut left) = ([0; 512], BYTES);
            while let Ok(count @ 1..) = from.read(&mut piece[..left.min(512)]) {
                if to.write_all(&piece[..count]).is_err() {
                    break;
                }
                left -= count;
                if left == 0 {
                    cuts.fetch_add(1, SeqCst);
                    break;
                }
            }
            let _was_closed = (from.shutdown(Shutdown::Both), to.shutdown(Shutdown::Both));
        });
    }
    Ok(())
}
