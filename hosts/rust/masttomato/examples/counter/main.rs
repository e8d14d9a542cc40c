//! Three processes on 127.0.0.1, with a node each. The first exports a counter; the second looks it up
//! and calls it while its connection is cut again and again, and hands it to the third; once both have
//! dropped it the first's object is dropped. Then the third is killed, and the others give it up. All
//! three keep traces: `nobj check`, where it is there, says whether they are together a run of a world.

mod child;
mod proxy;

use masttomato::SpaceId;
use masttomato::engine::Files;
use proxy::Proxy;
use std::error::Error;
use std::fs::{self, File};
use std::io::{BufRead, BufReader, Lines};
use std::path::{Path, PathBuf};
use std::process::{Child, ChildStdout, Command, Stdio};
use std::{env, process};

type Fallible<T> = Result<T, Box<dyn Error>>;
type Said = Lines<BufReader<ChildStdout>>;

fn space(number: u16) -> SpaceId {
    SpaceId::new(number).expect("1 to 32")
}

fn main() -> Fallible<()> {
    match &env::args().collect::<Vec<_>>()[..] {
        [_, number, folder, lower @ ..] => child::run(number.parse()?, Path::new(folder), lower),
        _ => parent(),
    }
}

fn parent() -> Fallible<()> {
    let folder = env::temp_dir().join(format!("counter-of-three-{}", process::id()));
    fs::create_dir_all(&folder)?;
    let (mut one, mut said_by_one) = start(1, &folder, &[])?;
    let address = next(&mut said_by_one)?;
    // Space 2 reaches space 1 by a proxy that cuts its connections.
    let proxy = Proxy::to(address.clone())?;
    let (mut two, mut said_by_two) = start(2, &folder, std::slice::from_ref(&proxy.address))?;
    let address_of_two = next(&mut said_by_two)?;
    let (mut three, mut said_by_three) = start(3, &folder, &[address, address_of_two])?;
    next(&mut said_by_three)?;
    print_until(2, &mut said_by_two, "dropped it")?;
    print_until(3, &mut said_by_three, "dropped it")?;
    print_until(1, &mut said_by_one, "is dropped")?;
    println!("the connection was cut: {}", proxy.cuts() > 3);
    three.kill()?;
    three.wait()?;
    println!("space 3 is killed");
    for (number, child, said) in [(1, &mut one, &mut said_by_one), (2, &mut two, &mut said_by_two)]
    {
        print_until(number, said, "reason 3")?;
        child.wait()?;
    }
    check(&folder)?;
    Ok(fs::remove_dir_all(&folder)?)
}

fn start(number: u16, folder: &Path, lower: &[String]) -> Fallible<(Child, Said)> {
    let mut command = Command::new(env::current_exe()?);
    command.arg(number.to_string()).arg(folder).args(lower);
    let mut child = command.stdin(Stdio::piped()).stdout(Stdio::piped()).spawn()?;
    let said = BufReader::new(child.stdout.take().expect("a pipe")).lines();
    Ok((child, said))
}

fn next(said: &mut Said) -> Fallible<String> {
    Ok(said.next().ok_or("a process ended early")??)
}

fn print_until(number: u16, said: &mut Said, last: &str) -> Fallible<()> {
    loop {
        let line = next(said)?;
        println!("space {number}: {line}");
        if line.ends_with(last) {
            return Ok(());
        }
    }
}

// NOBJ names the program; else it is the one that the gate has left.
fn check(folder: &Path) -> Fallible<()> {
    let made = Path::new(env!("CARGO_MANIFEST_DIR")).join("../../../crates/nob_demo/out/nob_demo");
    let nobj = env::var_os("NOBJ").map_or(made, PathBuf::from);
    let traces = (1..=3).map(|number| Files::join(folder, space(number), space(3)));
    fs::write(folder.join("traces"), traces.collect::<Result<String, _>>()?)?;
    if !nobj.is_file() {
        println!("not checked: there is no nobj");
        return Ok(());
    }
    let mut command = Command::new(nobj);
    let output = command.arg("check").stdin(File::open(folder.join("traces"))?).output()?;
    let said = String::from_utf8(output.stdout)?;
    // The first line, how many entries there are, differs from run to run.
    print!("{}", said.lines().skip(1).map(|line| format!("{line}\n")).collect::<String>());
    if said.ends_with("\nverdict yes\n") { Ok(()) } else { Err(said.into()) }
}
