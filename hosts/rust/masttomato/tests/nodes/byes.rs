//! A peer that says bye and is gone, while the node has no time to hear it: it is heard before anything is written.

use crate::plain;
use crate::scene::{call, frame, record};
use crate::things::*;
use masttomato::engine::Doing;
use masttomato::{Reason, Run, Session, ThreadReport};
use std::io::Write;
use std::net::TcpStream;

// Of space 2: it asks to be listed for an object of space 1, and calls its method 1, which takes nothing.
fn asks(index: u8) -> Vec<u8> {
    let dirty = [4, 0, 0, 0, 0, 0, 0, 0, index];
    let mut item = call(1, &[0]);
    (item[16], item[18]) = (index, 1);
    [frame(2, 1, 1, &dirty), frame(2, 1, 2, &item)].concat()
}

// The node's thread carries a method out meanwhile, so that all has come before it answers. The peer hasn't read the
// node's hello: so its end is a reset, and nothing can be written any more.
#[test]
fn a_bye_is_heard_though_nothing_can_be_written() {
    let one = nodes(1, |builder| builder.spaces(id(2))).remove(0);
    let gate = Gate::default();
    let maker = Box::new(Maker(gate.clone()));
    let maker = one.export_with::<dyn Trouble>(maker, Run::Inline).expect("room");
    one.bind("trouble", &maker).expect("a name");
    let mut stream = TcpStream::connect(one.address().expect("it listens")).expect("a node");
    stream.set_nodelay(true).expect("a socket");
    stream.write_all(&plain::hello(2, 2, 9).to_bytes()).expect("a node");
    eventually("it is let in", || one.session(id(2)) == Session::Open);
    stream.write_all(&record(0, 1, &asks(1))).expect("a node");
    let runs = |thread: &ThreadReport| matches!(thread.doing, Doing::Runs(_));
    eventually("its method runs", || one.threads().iter().any(runs));
    stream.write_all(&record(1, 0, &[]).repeat(100)).expect("a node");
    stream.write_all(&record(3, 0, &[])).expect("a node");
    drop(stream);
    gate.open();
    eventually("it is heard", || one.session(id(2)) == Session::Closed(Reason::PeerClosed));
}
