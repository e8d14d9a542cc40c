//! The three machines of README.md, on this one: each of them is a folder that has what its machine was given, and nothing
//! else. `openssl` makes the certificates, by tools/world-certificates.

#[path = "common/running.rs"]
mod running;

use running::{Running, example, port};
use std::fs;
use std::path::{Path, PathBuf};
use std::process::{Command, Output, Stdio};

/// The folders of three machines, below one that goes with the test.
struct Machines(PathBuf);

impl Machines {
    // None where there is no openssl.
    fn new(name: &str) -> Option<Machines> {
        if Command::new("openssl").arg("version").output().is_err() {
            eprintln!("skipped: there is no openssl to make certificates");
            return None;
        }
        let machines = Machines(
            Path::new(env!("CARGO_TARGET_TMPDIR"))
                .join(format!("shop-{name}-{}", std::process::id())),
        );
        let made = machines.0.join("certificates");
        let tool = Path::new(env!("CARGO_MANIFEST_DIR")).join("../../../tools/world-certificates");
        let mut command = Command::new(tool);
        let done = command.arg(&made).args(["shop", "1", "2", "3..=9"]).output();
        assert!(done.expect("the tool").status.success());
        let (first, second) = (port(), port());
        let peers = format!(
            "1 127.0.0.1:{first}\n2 127.0.0.1:{second}   # where things are\n3..=9 127.0.0.1:0\n"
        );
        for (machine, certificate) in
            [("orders", "space-1"), ("stock", "space-2"), ("desks", "space-3-9")]
        {
            let folder = machines.folder(machine);
            fs::create_dir_all(&folder).expect("a folder");
            fs::write(folder.join("world.peers"), &peers).expect("a file");
            let files = [format!("{certificate}.pem"), format!("{certificate}.key")];
            for file in files.iter().map(String::as_str).chain(["authority.pem"]) {
                fs::copy(made.join(file), folder.join(file)).expect("a copy");
            }
        }
        Some(machines)
    }

    fn folder(&self, machine: &str) -> PathBuf {
        self.0.join(machine)
    }

    fn shop(&self, word: &str, machine: &str) -> Command {
        let mut command = example("shop");
        command.arg(word).arg(self.folder(machine)).env("SHOP_GIVES_UP_AFTER", "60");
        command
    }

    // Makes the files of bounds, as somebody does once.
    fn make_bounds(&self) {
        for (machine, number) in [("orders", "1"), ("stock", "2")] {
            let made = self.shop("bounds", machine).arg(number).output().expect("the example");
            assert!(made.status.success(), "{made:?}");
        }
    }

    fn orders(&self) -> Running {
        let mut orders = Running::start(&mut self.shop("orders", "orders"));
        orders.hears("space 1 takes orders, in its life 1");
        orders
    }

    fn stock(&self, life: u16) -> Running {
        let mut stock = Running::start(&mut self.shop("stock", "stock"));
        stock.hears(&format!("space 2 has the stock, in its life {life}"));
        stock
    }

    fn desk(&self, number: &str) -> Running {
        Running::start(self.shop("desk", "desks").arg(number))
    }
}

impl Drop for Machines {
    fn drop(&mut self) {
        let _removed = fs::remove_dir_all(&self.0);
    }
}

fn order(desk: &mut Running, line: &str) -> String {
    desk.says(line);
    let said = desk.line();
    let said = said.strip_prefix(line).and_then(|said| said.strip_prefix(": "));
    said.expect("what became of it").into()
}

// Orders again and again until the stock answers: how many are left, and of how many orders before it nobody knows.
fn order_until_answered(desk: &mut Running, line: &str) -> (u32, u32) {
    let mut unknown = 0;
    for _ in 0..50 {
        let said = order(desk, line);
        let left = said.strip_prefix("ordered, ").and_then(|said| said.strip_suffix(" are left"));
        if let Some(left) = left {
            return (left.parse().expect("a number"), unknown);
        }
        let is_unknown = said.starts_with("perhaps ordered: ");
        assert!(is_unknown || said.starts_with("not ordered: "), "{said}");
        unknown += u32::from(is_unknown);
    }
    panic!("the stock never answers");
}

// Stops a process where it is, as if its machine couldn't be reached, or lets it go on.
fn pause(process: &Running, is_paused: bool) {
    let word = if is_paused { "-STOP" } else { "-CONT" };
    let sent = Command::new("kill").args([word, &process.0.id().to_string()]).status();
    assert!(sent.expect("kill").success());
}

// An order goes from a desk to orders and from there to the stock; the stock is killed and comes back, nobody has to be told.
#[test]
fn a_service_is_killed_and_comes_back() {
    let Some(machines) = Machines::new("killed") else { return };
    machines.make_bounds();
    let (_orders, stock, mut desk) = (machines.orders(), machines.stock(1), machines.desk("3"));
    let (left, unknown) = order_until_answered(&mut desk, "tea 2");
    assert_eq!(left, 98 - 2 * unknown, "while nobody is killed each order is carried out once");
    assert_eq!(order(&mut desk, "tea 99"), "not ordered: there are fewer");
    assert_eq!(order(&mut desk, "tea"), "a thing and how many of it are wanted");
    drop(stock);
    // What it had is gone with its life: nothing was stored.
    let _stock = machines.stock(2);
    let (left, unknown) = order_until_answered(&mut desk, "tea 2");
    assert!((98 - 2 * unknown..=98).contains(&left), "{left}, {unknown}");
    // A desk leaves in order, and the next one has the next number.
    drop(desk.0.stdin.take());
    assert!(desk.0.wait().expect("it ends").success());
    let said = order(&mut machines.desk("3"), "tea 2");
    let why = "not ordered: space 1 and this one don't connect. Of the one that was refused: \
               its number was used by an earlier life";
    assert!(said.starts_with(why), "{said}");
    let (next, unknown) = order_until_answered(&mut machines.desk("4"), "tea 2");
    assert_eq!(next, left - 2 - 2 * unknown);
}

// The stock can't be reached for a while: nobody knows of the order that was on its way, which is carried out once.
#[test]
fn a_partition_costs_time() {
    let Some(machines) = Machines::new("paused") else { return };
    machines.make_bounds();
    let (_orders, stock, mut desk) = (machines.orders(), machines.stock(1), machines.desk("9"));
    let (before, _) = order_until_answered(&mut desk, "tea 2");
    pause(&stock, true);
    assert_eq!(order(&mut desk, "tea 2"), "perhaps ordered: no reply came in time");
    pause(&stock, false);
    let (left, unknown) = order_until_answered(&mut desk, "tea 2");
    assert_eq!(left, before - 4 - 2 * unknown);
}

// It can't be reached for longer than that: the session closes at both ends, both programs open it anew, and go on.
#[test]
fn a_long_partition_closes_a_session_and_both_programs_open_it_anew() {
    let Some(machines) = Machines::new("given-up") else { return };
    machines.make_bounds();
    let mut orders = machines.shop("orders", "orders");
    let mut orders = Running::start(orders.env("SHOP_GIVES_UP_AFTER", "2"));
    orders.hears("space 1 takes orders, in its life 1");
    let (stock, mut desk) = (machines.stock(1), machines.desk("3"));
    let (before, _) = order_until_answered(&mut desk, "tea 2");
    pause(&stock, true);
    let closed = "perhaps ordered: the session closed before a reply came, for reason 3";
    assert!((0..50).any(|_| order(&mut desk, "tea 2") == closed), "it is never given up");
    pause(&stock, false);
    // Of what was on its way nobody knows, but the stock is the same: its life goes on.
    let (left, _) = order_until_answered(&mut desk, "tea 2");
    assert!(left < before, "{left}, {before}");
}

fn said_of(output: &Output) -> String {
    assert!(!output.status.success(), "{output:?}");
    String::from_utf8_lossy(&output.stderr).trim_end().replace(env!("CARGO_TARGET_TMPDIR"), "")
}

// What somebody gets wrong at first is said in words.
#[test]
fn what_a_machine_was_not_given_is_said() {
    let Some(machines) = Machines::new("wrong") else { return };
    let run = |word: &str, machine: &str, more: &[&str]| {
        let mut command = machines.shop(word, machine);
        said_of(&command.args(more).stdin(Stdio::null()).output().expect("the example"))
    };
    let all = format!("/shop-wrong-{}", std::process::id());
    let said = run("orders", "orders", &[]);
    assert!(said.starts_with(&format!("shop: {all}/orders/space-1.bounds: ")), "{said}");
    machines.make_bounds();
    let said = run("bounds", "orders", &["1"]);
    assert!(said.starts_with(&format!("shop: {all}/orders/space-1.bounds: ")), "{said}");
    assert_eq!(run("bounds", "desks", &["3"]), "shop: 1 and 2 keep bounds, and no others");
    assert_eq!(run("desk", "desks", &["2"]), "shop: a desk's number is one from 3 to 9");
    let said = run("desk", "orders", &["3"]);
    assert!(said.starts_with(&format!("shop: {all}/orders/space-3-9.pem: ")), "{said}");
    for file in ["pem", "key"] {
        let from = machines.folder("stock").join(format!("space-2.{file}"));
        fs::copy(from, machines.folder("desks").join(format!("space-3-9.{file}"))).expect("a copy");
    }
    let said = run("desk", "desks", &["3"]);
    assert_eq!(said, "shop: the certificate doesn't name space-3.shop.masttomato");
    fs::write(machines.folder("stock").join("world.peers"), "1 orders\n").expect("a file");
    let said = run("stock", "stock", &[]);
    let wanted =
        "world.peers: line 1: a number from 1 to 32 or a range, and an address, are wanted";
    assert_eq!(said, format!("shop: {all}/stock/{wanted}"));
}
