//! Three processes on 127.0.0.1, with a node each, of which the first has a service. It is killed ten times while the two
//! others call it without a pause, and each time who looks after it starts it again, as any supervisor does: it comes back under
//! its number, and the others go on with it without anybody's help. All lives keep chains: `nobj check`, where it is there,
//! says whether they are together a run of a world, and what each life said of itself is so.
//!
//! MASTTOMATO_RESTARTS says how often it is killed, if not ten times.

mod child;

use masttomato::SpaceId;
use masttomato::engine::{Files, World};
use masttomato::space::Bounds;
use std::error::Error;
use std::fs::{self, File};
use std::io::{BufRead, BufReader};
use std::net::TcpListener;
use std::path::{Path, PathBuf};
use std::process::{Child, ChildStdin, Command, Stdio};
use std::sync::Arc;
use std::sync::atomic::{AtomicU64, Ordering::SeqCst};
use std::time::{Duration, Instant};
use std::{env, process, thread};

type Fallible<T> = Result<T, Box<dyn Error>>;

const SPACES: u16 = 3;
/// So many calls of each caller are answered before the service is killed again.
const CALLS: u64 = 25;
/// Nothing here takes so long.
const LONG: Duration = Duration::from_secs(120);

fn space(number: u16) -> SpaceId {
    SpaceId::new(number).expect("1 to 32")
}

fn world() -> World {
    World::named("restarted")
}

/// Where a space keeps its bounds.
fn bounds_of(folder: &Path, number: u16) -> PathBuf {
    folder.join(format!("space-{number}.bounds"))
}

fn main() -> Fallible<()> {
    match &env::args().collect::<Vec<_>>()[..] {
        [_, number, folder, addresses @ ..] => {
            child::run(number.parse()?, Path::new(folder), addresses)
        }
        _ => parent(),
    }
}

fn parent() -> Fallible<()> {
    let restarts = env::var("MASTTOMATO_RESTARTS").map_or(Ok(10), |text| text.parse())?;
    let folder = env::temp_dir().join(format!("restarted-by-a-supervisor-{}", process::id()));
    fs::create_dir_all(&folder)?;
    // Once in the life of the world, and never again.
    for number in 1..=SPACES {
        Bounds::create(bounds_of(&folder, number), world(), space(number), space(SPACES))?;
    }
    let addresses = [free_address()?, free_address()?];
    let callers =
        [Process::start(2, &folder, &addresses)?, Process::start(3, &folder, &addresses)?];
    for life in 1..=restarts {
        let service = Process::start(1, &folder, &addresses)?;
        both_call(&callers)?;
        service.kill()?;
        println!("life {life} of the service was called by both, and was killed");
    }
    let service = Process::start(1, &folder, &addresses)?;
    both_call(&callers)?;
    println!("life {} of the service was called by both, and goes on", restarts + 1);
    for process in callers.into_iter().chain([service]) {
        process.end()?;
    }
    println!("all have ended");
    check(&folder)?;
    Ok(fs::remove_dir_all(&folder)?)
}

// An address that is free, and stays so as long as nobody else takes it.
fn free_address() -> Fallible<String> {
    Ok(TcpListener::bind("127.0.0.1:0")?.local_addr()?.to_string())
}

// Waits until each caller's calls were answered so many times more.
fn both_call(callers: &[Process; 2]) -> Fallible<()> {
    let wanted = callers.each_ref().map(|caller| caller.answered.load(SeqCst) + CALLS);
    let end = Instant::now() + LONG;
    while callers.iter().zip(wanted).any(|(caller, wanted)| caller.answered.load(SeqCst) < wanted) {
        thread::sleep(Duration::from_millis(2));
        if Instant::now() > end {
            return Err("the callers don't get on".into());
        }
    }
    Ok(())
}

/// One of the three, which ends in order when its input does.
struct Process {
    child: Child,
    told: ChildStdin,
    /// How many lines it wrote: a caller writes one for each answer.
    answered: Arc<AtomicU64>,
}

impl Process {
    fn start(number: u16, folder: &Path, addresses: &[String]) -> Fallible<Process> {
        let mut command = Command::new(env::current_exe()?);
        command.arg(number.to_string()).arg(folder).args(addresses);
        let mut child = command.stdin(Stdio::piped()).stdout(Stdio::piped()).spawn()?;
        let told = child.stdin.take().ok_or("a pipe")?;
        let said = BufReader::new(child.stdout.take().ok_or("a pipe")?);
        let answered: Arc<AtomicU64> = Arc::default();
        let counted = answered.clone();
        thread::spawn(move || {
            for _line in said.lines().map_while(Result::ok) {
                counted.fetch_add(1, SeqCst);
            }
        });
        Ok(Process { child, told, answered })
    }

    fn kill(mut self) -> Fallible<()> {
        self.child.kill()?;
        self.child.wait()?;
        Ok(())
    }

    fn end(mut self) -> Fallible<()> {
        drop(self.told);
        let status = self.child.wait()?;
        status.success().then_some(()).ok_or_else(|| format!("a process: {status}").into())
    }
}

// NOBJ names the program; else it is the one that the gate has left.
fn check(folder: &Path) -> Fallible<()> {
    let made = Path::new(env!("CARGO_MANIFEST_DIR")).join("../../../crates/nob_demo/out/nob_demo");
    let nobj = env::var_os("NOBJ").map_or(made, PathBuf::from);
    fs::write(folder.join("chains"), Files::join_lives(folder, space(SPACES))?)?;
    if !nobj.is_file() {
        println!("not checked: there is no nobj");
        return Ok(());
    }
    let mut command = Command::new(nobj);
    let output = command.arg("check").stdin(File::open(folder.join("chains"))?).output()?;
    let said = String::from_utf8(output.stdout)?;
    let (_, verdict) = said.trim_end().rsplit_once('\n').unwrap_or(("", &said));
    println!("{verdict}");
    if verdict == "verdict yes" { Ok(()) } else { Err(said.into()) }
}
