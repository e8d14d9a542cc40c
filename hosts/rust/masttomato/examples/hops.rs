//! The least that a call can cost by the way that it takes, without spaces and nodes: what `bench/tcp` says is to be
//! seen beside that.
//!
//!     hops direct|through CALLS
//!
//! The first process sends back what comes, 60 bytes, over TCP on 127.0.0.1. In the second a thread sends them and
//! looks until they are back: `direct` is the way of a call of spaces alone, and of a LocalNode. Where the kind is
//! `through`, that thread hands each call to another one, which looks for it and at the connection by turns, and looks
//! until it has it back: the way of a call through a node's thread. It prints how many calls came back in a second.

use std::error::Error;
use std::io::{BufRead, BufReader, ErrorKind, Read, Write};
use std::net::{TcpListener, TcpStream};
use std::process::{Command, Stdio};
use std::sync::atomic::{AtomicU64, Ordering::SeqCst};
use std::time::Instant;
use std::{env, hint, thread};

type Fallible<T> = Result<T, Box<dyn Error + Send + Sync>>;

const CALL: usize = 60;

fn main() -> Fallible<()> {
    let words: Vec<String> = env::args().skip(1).collect();
    match &words.iter().map(String::as_str).collect::<Vec<_>>()[..] {
        ["serve"] => serve(),
        ["direct", calls] => measure(calls.parse()?, direct),
        ["through", calls] => measure(calls.parse()?, through),
        _ => Err("hops direct|through CALLS".into()),
    }
}

// What has come, without waiting: whether that is a call.
fn take(stream: &mut TcpStream) -> Fallible<bool> {
    match stream.read(&mut [0; CALL]) {
        Ok(CALL) => Ok(true),
        Ok(_) => Err("the connection has ended".into()),
        Err(error) if error.kind() == ErrorKind::WouldBlock => Ok(false),
        Err(error) => Err(error.into()),
    }
}

fn ready(stream: &TcpStream) -> Fallible<()> {
    stream.set_nodelay(true)?;
    Ok(stream.set_nonblocking(true)?)
}

fn serve() -> Fallible<()> {
    let listener = TcpListener::bind("127.0.0.1:0")?;
    println!("{}", listener.local_addr()?);
    let (mut stream, _) = listener.accept()?;
    ready(&stream)?;
    // Who calls ends its connection.
    while let Ok(is_call) = take(&mut stream) {
        if is_call {
            stream.write_all(&[2; CALL])?;
        }
    }
    Ok(())
}

fn measure(calls: u64, make: fn(TcpStream, u64) -> Fallible<()>) -> Fallible<()> {
    let mut command = Command::new(env::current_exe()?);
    let mut server = command.arg("serve").stdout(Stdio::piped()).spawn()?;
    let mut line = String::new();
    BufReader::new(server.stdout.take().expect("a pipe")).read_line(&mut line)?;
    let stream = TcpStream::connect(line.trim())?;
    ready(&stream)?;
    let started = Instant::now();
    make(stream, calls)?;
    println!("{:.0}", calls as f64 / started.elapsed().as_secs_f64());
    server.wait()?;
    Ok(())
}

fn direct(mut stream: TcpStream, calls: u64) -> Fallible<()> {
    for _ in 0..calls {
        stream.write_all(&[1; CALL])?;
        while !take(&mut stream)? {}
    }
    Ok(())
}

fn through(mut stream: TcpStream, calls: u64) -> Fallible<()> {
    // How many calls were asked for, and how many are back.
    let (asked, back) = (AtomicU64::new(0), AtomicU64::new(0));
    thread::scope(|scope| {
        let thread = scope.spawn(|| -> Fallible<()> {
            let mut sent = 0;
            while back.load(SeqCst) < calls {
                if asked.load(SeqCst) > sent {
                    stream.write_all(&[1; CALL])?;
                    sent += 1;
                }
                if take(&mut stream)? {
                    back.fetch_add(1, SeqCst);
                }
            }
            Ok(())
        });
        for call in 1..=calls {
            asked.store(call, SeqCst);
            while back.load(SeqCst) < call && !thread.is_finished() {
                hint::spin_loop();
            }
        }
        thread.join().expect("no panic")
    })
}
