//! Three machines' worth of processes, which know each other by certificates: see README.md, "Three machines".
//!
//!     shop bounds FOLDER NUMBER     once for each of 1 and 2: makes the file of what its number has used
//!     shop orders FOLDER            space 1: takes orders
//!     shop stock FOLDER             space 2: has 100 of each thing
//!     shop desk FOLDER NUMBER       space 3 to 9: orders what each line of its input says, as `tea 2`
//!
//! FOLDER has what its machine was given: `world.peers`, `authority.pem`, and the certificate and the key of the process. The
//! first two run until they are killed, and come back under their numbers; each life of a desk takes the next number.
//! SHOP_GIVES_UP_AFTER says after how many seconds without a connection a session closes, if not after 30.

use masttomato::engine::World;
use masttomato::space::Bounds;
use masttomato::{
    Builder, CallError, Identity, Named, Node, NodeError, Peers, Session, SpaceId, interface,
};
use std::collections::BTreeMap;
use std::env;
use std::error::Error;
use std::io;
use std::path::{Path, PathBuf};
use std::process::ExitCode;
use std::time::Duration;

type Fallible<T> = Result<T, Box<dyn Error>>;

const WORLD: &str = "shop";
const ORDERS: u16 = 1;
const STOCK: u16 = 2;
const FIRST_DESK: u16 = 3;
const LAST: u16 = 9;
/// So long a call is waited for.
const PATIENCE: Duration = Duration::from_secs(5);

/// Where orders are placed.
#[interface]
pub trait Orders {
    /// Orders so many of a thing: how many are left of it.
    ///
    /// # Errors
    /// Why they aren't ordered, or that nobody knows.
    fn place(&mut self, thing: String, count: u32) -> Result<u32, String>;
}

/// Where things are.
#[interface]
pub trait Stock {
    /// Takes so many of a thing: how many are left, or nothing where there are fewer.
    fn take(&mut self, thing: String, count: u32) -> Option<u32>;
}

struct Book {
    node: Node,
    stock: Named<dyn Stock>,
}

impl Orders for Book {
    fn place(&mut self, thing: String, count: u32) -> Result<u32, String> {
        let taken = self.stock.with(|stock| stock.take(thing, count).wait_for(PATIENCE));
        if taken.is_err() {
            open_again(&self.node, space(STOCK));
        }
        let taken = taken.map_err(|error| format!("{}: {error}", outcome(&error)))?;
        taken.ok_or("not ordered: there are fewer".into())
    }
}

#[derive(Default)]
struct Shelves {
    left: BTreeMap<String, u32>,
}

impl Stock for Shelves {
    fn take(&mut self, thing: String, count: u32) -> Option<u32> {
        let left = self.left.entry(thing).or_insert(100);
        *left = left.checked_sub(count)?;
        Some(*left)
    }
}

fn space(number: u16) -> SpaceId {
    SpaceId::new(number).expect("1 to 32")
}

// Opens a session that a long partition closed, at this end. Where something that was lost with it is still held, that
// is refused, and the next call has given it back.
fn open_again(node: &Node, peer: SpaceId) {
    if let Session::Closed(_) = node.session(peer) {
        let _refused = node.open(peer);
    }
}

fn bounds_of(folder: &Path, number: u16) -> PathBuf {
    folder.join(format!("space-{number}.bounds"))
}

// A node of the world, by what its machine was given. The certificate of all desks names all of their numbers.
fn builder(folder: &Path, number: u16) -> Fallible<Builder> {
    let name = match number {
        ORDERS | STOCK => format!("space-{number}"),
        _ => format!("space-{FIRST_DESK}-{LAST}"),
    };
    let file = |ending: &str| folder.join(format!("{name}.{ending}"));
    let identity = Identity::read(file("pem"), file("key"), folder.join("authority.pem"))?;
    let seconds = env::var("SHOP_GIVES_UP_AFTER").map_or(Ok(30), |text| text.parse())?;
    let builder = Node::builder(space(number), Peers::read(folder.join("world.peers"))?)
        .world(WORLD)
        .tls(identity)
        .give_up_after(Duration::from_secs(seconds));
    Ok(builder)
}

// One that comes back under its number, and which of its lives it is in.
fn start(folder: &Path, number: u16) -> Fallible<(Node, u64)> {
    let (path, world) = (bounds_of(folder, number), World::named(WORLD));
    let bounds = Bounds::open(&path, world, space(number), space(LAST));
    let bounds = bounds.map_err(|error| format!("{}: {error}", path.display()))?;
    let life = bounds.life();
    Ok((builder(folder, number)?.bounds(bounds).start()?, life))
}

// Serves until it is killed. Whoever was away for so long that the session closed may come again; where it never does, as a
// desk that has left, the session is given up once more, and all that costs is another try.
fn serve(node: &Node) -> Result<(), NodeError> {
    for (peer, session) in node.changes()? {
        if let Session::Closed(_) = session {
            open_again(node, peer);
        }
    }
    Ok(())
}

fn take_orders(folder: &Path) -> Fallible<()> {
    let (node, life) = start(folder, ORDERS)?;
    let book = Book { node: node.clone(), stock: node.named(space(STOCK), "stock") };
    node.bind("orders", &node.export::<dyn Orders>(Box::new(book))?)?;
    println!("space {ORDERS} takes orders, in its life {life}");
    Ok(serve(&node)?)
}

fn keep_stock(folder: &Path) -> Fallible<()> {
    let (node, life) = start(folder, STOCK)?;
    node.bind("stock", &node.export::<dyn Stock>(Box::<Shelves>::default())?)?;
    println!("space {STOCK} has the stock, in its life {life}");
    Ok(serve(&node)?)
}

fn sit_at_desk(folder: &Path, number: u16) -> Fallible<()> {
    let node = builder(folder, number)?.start()?;
    let orders = node.named::<dyn Orders>(space(ORDERS), "orders");
    for line in io::stdin().lines() {
        let line = line?;
        match order_of(&line) {
            None => println!("{line}: a thing and how many of it are wanted"),
            Some((thing, count)) => println!("{line}: {}", place(&node, &orders, thing, count)),
        }
    }
    // It says bye, so that nobody waits for it to come back.
    node.shutdown(PATIENCE);
    Ok(())
}

fn order_of(line: &str) -> Option<(&str, u32)> {
    let (thing, count) = line.trim().rsplit_once(' ')?;
    Some((thing, count.parse().ok()?))
}

fn place(node: &Node, orders: &Named<dyn Orders>, thing: &str, count: u32) -> String {
    // An order waits for the stock, too.
    let wait = 2 * PATIENCE;
    match orders.with(|orders| orders.place(thing.into(), count).wait_for(wait)) {
        Ok(Ok(left)) => format!("ordered, {left} are left"),
        Ok(Err(why)) => why,
        Err(error) => {
            open_again(node, space(ORDERS));
            format!("{}: {error}", outcome(&error))
        }
    }
}

// Of a call that was made, and of which no reply came, nobody knows whether it was carried out.
fn outcome(error: &CallError) -> &'static str {
    match error {
        CallError::Ended(_) | CallError::TimedOut => "perhaps ordered",
        _ => "not ordered",
    }
}

fn run(words: &[&str]) -> Fallible<()> {
    match words {
        ["bounds", folder, number] => {
            let number = match number.parse() {
                Ok(number @ ORDERS..=STOCK) => number,
                _ => return Err("1 and 2 keep bounds, and no others".into()),
            };
            let path = bounds_of(Path::new(folder), number);
            let made = Bounds::create(&path, World::named(WORLD), space(number), space(LAST));
            Ok(made.map_err(|error| format!("{}: {error}", path.display()))?)
        }
        ["orders", folder] => take_orders(Path::new(folder)),
        ["stock", folder] => keep_stock(Path::new(folder)),
        ["desk", folder, number] => match number.parse() {
            Ok(number @ FIRST_DESK..=LAST) => sit_at_desk(Path::new(folder), number),
            _ => Err("a desk's number is one from 3 to 9".into()),
        },
        _ => {
            Err("shop bounds FOLDER NUMBER, orders FOLDER, stock FOLDER or desk FOLDER NUMBER"
                .into())
        }
    }
}

fn main() -> ExitCode {
    let words: Vec<String> = env::args().skip(1).collect();
    let words: Vec<&str> = words.iter().map(String::as_str).collect();
    match run(&words) {
        Ok(()) => ExitCode::SUCCESS,
        Err(error) => {
            eprintln!("shop: {error}");
            ExitCode::FAILURE
        }
    }
}
