//! Three processes on 127.0.0.1, with a node each. The first has a counter, which the other two call. Then the second
//! is cut off from the first for longer than its retries last: their session closes at both ends, while the third
//! goes on. The second gives back what it has lost, both open the session anew, and it looks the counter up again. All
//! three keep traces: `nobj check`, where it is there, says whether they are together a run of a world.

mod child;
mod proxy;

use masttomato::SpaceId;
use masttomato::engine::Files;
use proxy::Proxy;
use std::error::Error;
use std::fs::{self, File};
use std::io::{BufRead, BufReader, Lines, Write};
use std::path::{Path, PathBuf};
use std::process::{Child, ChildStdin, ChildStdout, Command, Stdio};
use std::{env, process};

type Fallible<T> = Result<T, Box<dyn Error>>;

fn space(number: u16) -> SpaceId {
    SpaceId::new(number).expect("1 to 32")
}

fn main() -> Fallible<()> {
    match &env::args().collect::<Vec<_>>()[..] {
        [_, number, folder, lower @ ..] => child::run(number.parse()?, Path::new(folder), lower),
        _ => parent(),
    }
}

fn parent() -> Fallible<()> {
    let folder = env::temp_dir().join(format!("reopened-by-three-{}", process::id()));
    fs::create_dir_all(&folder)?;
    let (mut one, address) = Process::start(1, &folder, &[])?;
    // Space 2 reaches space 1 by a proxy, which can cut it off.
    let proxy = Proxy::to(address.clone())?;
    let (mut two, address_of_two) =
        Process::start(2, &folder, std::slice::from_ref(&proxy.address))?;
    let (mut three, _) = Process::start(3, &folder, &[address, address_of_two])?;
    tell(&mut two, &["look up", "add 20"])?;
    tell(&mut three, &["look up", "add 3"])?;

    proxy.block();
    println!("space 2 is cut off from space 1");
    tell(&mut two, &["wait for 1"])?;
    tell(&mut one, &["wait for 2"])?;
    tell(&mut three, &["add 4"])?;
    tell(&mut two, &["add 1", "open 1", "drop"])?;

    proxy.allow();
    println!("space 2 can reach space 1 again");
    tell(&mut one, &["open 2"])?;
    tell(&mut two, &["open 1", "look up", "add 15", "drop"])?;
    tell(&mut three, &["drop"])?;
    tell(&mut one, &["unbind", "wait until dropped"])?;
    for process in [two, three, one] {
        process.end()?;
    }
    proxy.end();
    check(&folder)?;
    Ok(fs::remove_dir_all(&folder)?)
}

/// One of the three: it says a line for each that it is told, and ends where there are no more.
struct Process {
    number: u16,
    child: Child,
    told: ChildStdin,
    said: Lines<BufReader<ChildStdout>>,
}

impl Process {
    // Starts one, which says first where it listens.
    fn start(number: u16, folder: &Path, lower: &[String]) -> Fallible<(Process, String)> {
        let mut command = Command::new(env::current_exe()?);
        command.arg(number.to_string()).arg(folder).args(lower);
        let mut child = command.stdin(Stdio::piped()).stdout(Stdio::piped()).spawn()?;
        let told = child.stdin.take().ok_or("a pipe")?;
        let said = BufReader::new(child.stdout.take().ok_or("a pipe")?).lines();
        let mut process = Process { number, child, told, said };
        let address = process.next()?;
        Ok((process, address))
    }

    fn next(&mut self) -> Fallible<String> {
        Ok(self.said.next().ok_or("a process ended early")??)
    }

    fn end(mut self) -> Fallible<()> {
        drop(self.told);
        let status = self.child.wait()?;
        let failed = || format!("space {}: {status}", self.number).into();
        status.success().then_some(()).ok_or_else(failed)
    }
}

fn tell(process: &mut Process, lines: &[&str]) -> Fallible<()> {
    for line in lines {
        writeln!(process.told, "{line}")?;
        let said = process.next()?;
        println!("space {}: {said}", process.number);
    }
    Ok(())
}

// NOBJ names the program; else it is the one that the gate has left.
fn check(folder: &Path) -> Fallible<()> {
    let made = Path::new(env!("CARGO_MANIFEST_DIR")).join("../../../crates/nob_demo/out/nob_demo");
    let nobj = env::var_os("NOBJ").map_or(made, PathBuf::from);
    let traces = (1..=3).map(|number| Files::join(folder, space(number), space(3)));
    fs::write(folder.join("traces"), traces.collect::<Result<String, _>>()?)?;
    if !nobj.is_file() {
        println!("not checked: there is no nobj");
        return Ok(());
    }
    let mut command = Command::new(nobj);
    let output = command.arg("check").stdin(File::open(folder.join("traces"))?).output()?;
    let said = String::from_utf8(output.stdout)?;
    // The first line, how many entries there are, differs from run to run.
    print!("{}", said.lines().skip(1).map(|line| format!("{line}\n")).collect::<String>());
    if said.ends_with("\nverdict yes\n") { Ok(()) } else { Err(said.into()) }
}
