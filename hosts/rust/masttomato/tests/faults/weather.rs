//! The way between processes: a proxy in front of each of them, and what befalls its connections.

use crate::Numbers;
use crate::manner::{Manner, Way};
use crate::plan::{Passage, Plan};
use crate::strangers;
use std::io::{ErrorKind, Read};
use std::net::{Shutdown, SocketAddr, TcpListener, TcpStream};
use std::sync::atomic::{AtomicBool, AtomicU64, Ordering::SeqCst};
use std::sync::{Arc, Mutex};
use std::thread::{self, JoinHandle};
use std::time::Duration;

/// What befalls a connection.
#[derive(Clone, Copy, Debug, PartialEq, Eq)]
pub enum Fault {
    /// It is cut where it is.
    Cut,
    /// It is cut behind so many more bytes one way.
    CutBehind(usize),
    /// It is let go with what came over it unread, so that the system resets it.
    Reset,
    /// One side is told that nothing comes any more; the other goes on.
    OneSide,
    /// Nothing goes over it one way for so many milliseconds.
    Stall(u64),
    /// From now on what goes over it one way goes so.
    Turns(Manner),
    /// Behind the record that goes over it one way stand so many bytes of no record.
    Garbage(usize),
    /// Behind so many bytes one way a bit is another; where it isn't sealed it is cut there.
    Changes(usize),
}

impl Fault {
    /// Any of them.
    pub fn any(numbers: &mut Numbers) -> Fault {
        match numbers.below(32) {
            0..4 => Fault::Cut,
            4..9 => Fault::CutBehind(numbers.below(600) as usize),
            9..11 => Fault::Reset,
            11..13 => Fault::OneSide,
            13 => Fault::Stall(500 + numbers.below(3_000)),
            14..20 => Fault::Stall(1 + numbers.below(60)),
            20..23 => Fault::Garbage(16 + numbers.below(200) as usize),
            23 => Fault::Changes(numbers.below(2_000) as usize),
            _ => Fault::Turns(Manner::any(numbers)),
        }
    }

    /// Any that may befall a connection from its first byte on: in its hellos, or in its handshake where it is sealed.
    pub fn early(numbers: &mut Numbers) -> Fault {
        match numbers.below(8) {
            0..2 => Fault::CutBehind(numbers.below(200) as usize),
            2 | 3 => Fault::CutBehind(numbers.below(5_000) as usize),
            4 => Fault::Stall(1 + numbers.below(400)),
            5 => Fault::Changes(numbers.below(4_000) as usize),
            _ => Fault::Turns(Manner::any(numbers)),
        }
    }
}

/// A connection that is carried.
#[derive(Default)]
struct Carried {
    fault: Mutex<Option<Fault>>,
    is_over: AtomicBool,
}

/// Where nobody lives yet, or any more.
type Target = Arc<Mutex<Option<SocketAddr>>>;

/// What all threads of a world's weather share.
#[derive(Clone, Default)]
struct Shared {
    places: Arc<Mutex<Vec<(SocketAddr, Target)>>>,
    carried: Arc<Mutex<Vec<Arc<Carried>>>>,
    is_over: Arc<AtomicBool>,
    faults: Arc<AtomicU64>,
    strangers: Arc<AtomicU64>,
    astray: Arc<AtomicU64>,
}

/// The proxies of a world, and its weather.
pub struct Weather {
    shared: Shared,
    threads: Vec<JoinHandle<()>>,
}

impl Weather {
    /// So many places, from 1 on, and the weather of a plan, over connections that may be sealed.
    pub fn new(places: u16, plan: Plan, is_sealed: bool) -> Weather {
        let mut weather = Weather { shared: Shared::default(), threads: Vec::new() };
        for place in 0..places {
            let listener = TcpListener::bind("127.0.0.1:0").expect("a port");
            let address = listener.local_addr().expect("its address");
            weather.shared.places.lock().unwrap().push((address, Target::default()));
            weather.begin(move |shared| accept(&listener, place, &shared, plan, is_sealed));
        }
        weather.begin(move |shared| {
            for blow in (0..).map(|place| plan.blow(place)) {
                thread::sleep(blow.after);
                if shared.is_over.load(SeqCst) {
                    return;
                }
                befall(&shared, blow.which, blow.fault);
            }
        });
        weather.begin(move |shared| {
            for (after, which, mut numbers) in (0..).map(|place| plan.stranger(place)) {
                thread::sleep(after);
                if shared.is_over.load(SeqCst) {
                    return;
                }
                if let Some(address) = shared.any_target(which) {
                    strangers::visit(address, &mut numbers);
                    shared.strangers.fetch_add(1, SeqCst);
                }
            }
        });
        weather
    }

    fn begin(&mut self, work: impl FnOnce(Shared) + Send + 'static) {
        let shared = self.shared.clone();
        self.threads.push(thread::spawn(move || work(shared)));
    }

    /// Where a place is found by others.
    pub fn address(&self, place: u16) -> SocketAddr {
        self.shared.places.lock().unwrap()[usize::from(place) - 1].0
    }

    /// Who lives at a place listens here.
    pub fn settle(&self, place: u16, address: Option<SocketAddr>) {
        let places = self.shared.places.lock().unwrap();
        *places[usize::from(place) - 1].1.lock().unwrap() = address;
    }

    /// How many faults befell connections, how many strangers came, and how many connections went astray.
    pub fn sums(&self) -> [u64; 3] {
        let Shared { faults, strangers, astray, .. } = &self.shared;
        [faults, strangers, astray].map(|sum| sum.load(SeqCst))
    }
}

impl Shared {
    fn target(&self, place: u16) -> Option<SocketAddr> {
        *self.places.lock().unwrap()[usize::from(place)].1.lock().unwrap()
    }

    // Where somebody lives: which of these places, from any number on.
    fn any_target(&self, which: u64) -> Option<SocketAddr> {
        let count = self.places.lock().unwrap().len() as u16;
        let settled: Vec<SocketAddr> = (0..count).filter_map(|place| self.target(place)).collect();
        settled.get(which as usize % settled.len().max(1)).copied()
    }
}

impl Drop for Weather {
    fn drop(&mut self) {
        self.shared.is_over.store(true, SeqCst);
        for carried in self.shared.carried.lock().unwrap().iter() {
            carried.is_over.store(true, SeqCst);
        }
        for (address, _) in &*self.shared.places.lock().unwrap() {
            // Who waits for a connection sees that it is over.
            let _woken = TcpStream::connect(address);
        }
        for thread in self.threads.drain(..) {
            let _ended = thread.join();
        }
    }
}

fn befall(shared: &Shared, which: u64, fault: Fault) {
    let mut carried = shared.carried.lock().unwrap();
    carried.retain(|carried| !carried.is_over.load(SeqCst));
    if !carried.is_empty() {
        let place = which as usize % carried.len();
        *carried[place].fault.lock().unwrap() = Some(fault);
        shared.faults.fetch_add(1, SeqCst);
    }
}

fn accept(listener: &TcpListener, place: u16, shared: &Shared, plan: Plan, is_sealed: bool) {
    for (near, count) in listener.incoming().flatten().zip(0..) {
        if shared.is_over.load(SeqCst) {
            return;
        }
        let Passage { astray, begins, ways } = plan.passage(place, count);
        // Some go astray, and come to whoever lives elsewhere.
        let target = astray.map_or_else(|| shared.target(place), |which| shared.any_target(which));
        shared.astray.fetch_add(astray.is_some().into(), SeqCst);
        let Some(far) = target.and_then(|address| TcpStream::connect(address).ok()) else {
            continue;
        };
        let both = Arc::new(Carried { fault: Mutex::new(begins), ..Carried::default() });
        shared.faults.fetch_add(begins.is_some().into(), SeqCst);
        let (Ok(back), Ok(forth)) = (near.try_clone(), far.try_clone()) else { continue };
        shared.carried.lock().unwrap().push(both.clone());
        for ((from, to), seed) in [(near, forth), (far, back)].into_iter().zip(ways) {
            let both = both.clone();
            to.set_nodelay(true).expect("a socket");
            thread::spawn(move || {
                carry(from, Way::new(to, seed, is_sealed), &both);
                both.is_over.store(true, SeqCst);
            });
        }
    }
}

// Carries what comes one way, until either way is over.
fn carry(mut from: TcpStream, mut way: Way, both: &Carried) {
    let mut piece = [0; 8_192];
    while !both.is_over.load(SeqCst) {
        match both.fault.lock().unwrap().take() {
            Some(Fault::Cut) => break,
            Some(Fault::Reset) => return,
            Some(Fault::Stall(time)) => thread::sleep(Duration::from_millis(time)),
            Some(Fault::OneSide) => way.falls_silent(),
            Some(Fault::CutBehind(count)) => way.ends_behind(count),
            Some(Fault::Turns(manner)) => way.turns(manner),
            Some(Fault::Garbage(count)) => way.spoils(count),
            Some(Fault::Changes(count)) => way.changes(count),
            None => {}
        }
        from.set_read_timeout(Some(way.patience())).expect("a socket");
        let came = match from.read(&mut piece) {
            Ok(0) => {
                let _brought = way.bring_all();
                break;
            }
            Ok(count) => count,
            Err(error) if is_for_later(error.kind()) => 0,
            Err(_) => break,
        };
        if way.carry(&piece[..came]).is_err() {
            break;
        }
    }
    let _was_closed = from.shutdown(Shutdown::Both);
    way.close();
}

fn is_for_later(kind: ErrorKind) -> bool {
    matches!(kind, ErrorKind::WouldBlock | ErrorKind::TimedOut | ErrorKind::Interrupted)
}
