//! Ends of connections that aren't a node's: they show what certificates they like, or none, and take any.

use rustls::client::{ServerCertVerified, ServerCertVerifier};
use rustls::{
    Certificate, ClientConfig, ClientConnection, Error, PrivateKey, ServerConfig, ServerConnection,
    ServerName, Stream,
};
use std::io::{BufReader, Read, Write};
use std::net::{Shutdown, SocketAddr, TcpListener, TcpStream};
use std::path::Path;
use std::sync::Arc;
use std::sync::atomic::{AtomicBool, Ordering::SeqCst};
use std::thread::{self, JoinHandle};
use std::time::{Duration, SystemTime};

/// A certificate, those behind it, and the key.
#[derive(Clone)]
pub struct Shown {
    pub chain: Vec<Certificate>,
    key: PrivateKey,
}

/// What two files say.
pub fn shown(folder: &Path, name: &str) -> Shown {
    let read = |ending: &str| {
        let file = std::fs::File::open(folder.join(format!("{name}.{ending}"))).expect("a file");
        BufReader::new(file)
    };
    let chain = rustls_pemfile::certs(&mut read("pem")).expect("a text");
    let mut keys = rustls_pemfile::pkcs8_private_keys(&mut read("key")).expect("a text");
    let chain = chain.into_iter().map(Certificate).collect();
    Shown { chain, key: PrivateKey(keys.remove(0)) }
}

struct Anybody;

impl ServerCertVerifier for Anybody {
    fn verify_server_cert(
        &self,
        _: &Certificate,
        _: &[Certificate],
        _: &ServerName,
        _: &mut dyn Iterator<Item = &[u8]>,
        _: &[u8],
        _: SystemTime,
    ) -> Result<ServerCertVerified, Error> {
        Ok(ServerCertVerified::assertion())
    }
}

fn connection_of(shown: Option<&Shown>) -> ClientConnection {
    let builder = ClientConfig::builder()
        .with_safe_defaults()
        .with_custom_certificate_verifier(Arc::new(Anybody));
    let config = match shown {
        Some(Shown { chain, key }) => {
            builder.with_single_cert(chain.clone(), key.clone()).expect("a key")
        }
        None => builder.with_no_client_auth(),
    };
    let name = ServerName::try_from("whoever.is.there").expect("a name");
    ClientConnection::new(Arc::new(config), name).expect("it is known")
}

/// What somebody says who begins a handshake of TLS.
pub fn first_words() -> Vec<u8> {
    let mut words = Vec::new();
    connection_of(None).write_tls(&mut words).expect("a Vec takes all");
    words
}

/// Connects, shows this, says these bytes and waits for an answer as long: it, or why there is none.
pub fn knock(address: SocketAddr, shown: Option<&Shown>, said: &[u8]) -> Result<Vec<u8>, String> {
    let mut connection = connection_of(shown);
    let mut stream = TcpStream::connect(address).expect("somebody listens");
    stream.set_read_timeout(Some(Duration::from_secs(60))).expect("a socket");
    let mut stream = Stream::new(&mut connection, &mut stream);
    let mut answer = vec![0; said.len()];
    let mut talk = || {
        stream.write_all(said)?;
        stream.read_exact(&mut answer)
    };
    talk().map_err(|error| error.to_string())?;
    Ok(answer)
}

/// Who connects, shows this, and says something now and then, but reads nothing behind the handshake.
pub struct Talks(ClientConnection, TcpStream);

impl Talks {
    pub fn to(address: SocketAddr, shown: &Shown) -> Talks {
        let stream = TcpStream::connect(address).expect("somebody listens");
        // What it says leaves at once, and so before it goes.
        stream.set_nodelay(true).expect("a socket");
        Talks(connection_of(Some(shown)), stream)
    }

    pub fn say(&mut self, bytes: &[u8]) {
        Stream::new(&mut self.0, &mut self.1).write_all(bytes).expect("it is heard");
    }
}

/// Somebody who listens and takes one connection after the other, until this is dropped.
pub struct Listens {
    pub address: SocketAddr,
    ends: Arc<AtomicBool>,
    thread: Option<JoinHandle<()>>,
}

impl Listens {
    fn and(mut take: impl FnMut(TcpStream) + Send + 'static) -> Listens {
        let listener = TcpListener::bind("127.0.0.1:0").expect("a port");
        let address = listener.local_addr().expect("it has one");
        let ends = Arc::<AtomicBool>::default();
        let told = ends.clone();
        let thread = thread::spawn(move || {
            for stream in listener.incoming().flatten() {
                if told.load(SeqCst) {
                    return;
                }
                take(stream);
            }
        });
        Listens { address, ends, thread: Some(thread) }
    }
}

impl Drop for Listens {
    fn drop(&mut self) {
        self.ends.store(true, SeqCst);
        // It waits for a connection.
        let _woken = TcpStream::connect(self.address);
        let _ended = self.thread.take().map(JoinHandle::join);
    }
}

/// Shows this to whoever comes; says nothing more.
pub fn pose(shown: &Shown) -> Listens {
    let config = ServerConfig::builder()
        .with_safe_defaults()
        .with_no_client_auth()
        .with_single_cert(shown.chain.clone(), shown.key.clone())
        .expect("a key");
    let config = Arc::new(config);
    Listens::and(move |mut stream| {
        let mut connection = ServerConnection::new(config.clone()).expect("it is known");
        let _heard = Stream::new(&mut connection, &mut stream).read(&mut [0]);
    })
}

/// Carries each connection to a node and back. What goes to the node is shown before, piece by piece, and may be changed.
pub fn between(
    target: SocketAddr,
    mut begin: impl FnMut() -> Box<dyn FnMut(&mut [u8])> + Send + 'static,
) -> Listens {
    Listens::and(move |mut near| {
        let mut far = TcpStream::connect(target).expect("the node listens");
        let both = (far.try_clone().expect("a socket"), near.try_clone().expect("a socket"));
        let back = thread::spawn(move || {
            let (mut far, mut near) = both;
            let _end = std::io::copy(&mut far, &mut near);
            let _was_closed = near.shutdown(Shutdown::Both);
        });
        let (mut look, mut piece) = (begin(), [0; 4_096]);
        while let Ok(count @ 1..) = near.read(&mut piece) {
            look(&mut piece[..count]);
            if far.write_all(&piece[..count]).is_err() {
                break;
            }
        }
        let _was_closed = far.shutdown(Shutdown::Both);
        back.join().expect("no panic");
    })
}
