//! What tests of several processes share. Not each of them uses all of it.
#![allow(dead_code)]

use std::io::{BufRead, BufReader, Write};
use std::net::TcpListener;
use std::process::{Child, ChildStdout, Command, Stdio};
use std::sync::atomic::{AtomicU16, Ordering::SeqCst};

/// An example that was built beside this test.
pub fn example(name: &str) -> Command {
    let this = std::env::current_exe().expect("this test's program");
    let folder = this.ancestors().nth(2).expect("its folder").join("examples");
    let program = folder.join(name);
    assert!(program.is_file(), "cargo build --examples makes {}", program.display());
    Command::new(program)
}

/// A port that is free, and that no listener on port 0 is ever given: below those that systems give.
pub fn port() -> u16 {
    static NEXT: AtomicU16 = AtomicU16::new(0);
    loop {
        let port =
            11_000 + (std::process::id() as u16 % 1_000) * 20 + NEXT.fetch_add(1, SeqCst) % 20;
        if TcpListener::bind(("127.0.0.1", port)).is_ok() {
            return port;
        }
    }
}

/// A process that ends with the test.
pub struct Running(pub Child, BufReader<ChildStdout>);

impl Running {
    pub fn start(command: &mut Command) -> Running {
        let mut child =
            command.stdin(Stdio::piped()).stdout(Stdio::piped()).spawn().expect("a program");
        let said = BufReader::new(child.stdout.take().expect("a pipe"));
        Running(child, said)
    }

    /// The next line that it writes.
    pub fn line(&mut self) -> String {
        let mut line = String::new();
        self.1.read_line(&mut line).expect("a line");
        line.trim_end().into()
    }

    pub fn hears(&mut self, wanted: &str) {
        assert_eq!(self.line(), wanted);
    }

    pub fn says(&mut self, line: &str) {
        let stdin = self.0.stdin.as_mut().expect("a pipe");
        writeln!(stdin, "{line}").expect("it runs");
    }
}

impl Drop for Running {
    fn drop(&mut self) {
        let _ended = (self.0.kill(), self.0.wait());
    }
}
