//! Who comes to a node without being a peer: that says nothing, or what no node says, or says hello and then that.

use crate::sealed::WORLD;
use crate::{Numbers, SPACES};
use masttomato::SpaceId;
use masttomato::engine::{Hello, Life, WINDOW, World};
use std::io::{Read, Write};
use std::net::{SocketAddr, TcpStream};
use std::time::Duration;

/// A stranger comes to this address, and leaves again.
pub fn visit(address: SocketAddr, numbers: &mut Numbers) {
    let soon = Duration::from_millis(200);
    let Ok(mut stream) = TcpStream::connect_timeout(&address, soon) else { return };
    let garbage = numbers.below(2_000) as usize;
    let said = match numbers.below(5) {
        0 => Vec::new(),
        1 => numbers.bytes(garbage),
        // What begins as a hello does, but for some of its bytes.
        2 => {
            let mut hello = hello(SPACES, numbers);
            let spoilt = numbers.bytes(8);
            let place = numbers.below(56) as usize;
            hello[place..place + 8].copy_from_slice(&spoilt);
            hello[7] |= 0x80;
            hello
        }
        // A part of one.
        3 => hello(SPACES, numbers)[..numbers.below(64) as usize].to_vec(),
        // A whole one, of a space that connects to nobody, and garbage behind it.
        _ => [hello(1, numbers), numbers.bytes(garbage)].concat(),
    };
    let _sent = stream.write_all(&said);
    let _timed = stream.set_read_timeout(Some(Duration::from_millis(numbers.below(300) + 1)));
    let _heard = stream.read(&mut [0; 100]);
}

fn hello(space: u16, numbers: &mut Numbers) -> Vec<u8> {
    let id = |number| SpaceId::new(number).expect("a space");
    let life = Life { number: numbers.below(5), process: numbers.below(1 << 60) };
    let (space, spaces) = (id(space), id(SPACES));
    Hello { space, spaces, world: World::named(WORLD), life, window: WINDOW, refused: None }
        .to_bytes()
        .to_vec()
}
