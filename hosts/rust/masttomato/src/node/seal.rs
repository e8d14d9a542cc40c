//! What the bytes of a connection go through: nothing, or a seal, by which both ends know who the other one is.

use super::peers::Line;
use crate::engine::Flaw;
use crate::space::SpaceId;
use mio::net::TcpStream;
use std::io::{self, ErrorKind, Read, Write};

/// Seals what one end of a connection writes, and opens what it reads. The socket is never waited for.
pub(crate) trait Seal: Send {
    /// Goes on showing who either end is, as far as what came allows: whether that is done.
    fn shake(&mut self, stream: &mut TcpStream) -> Result<bool, Flaw>;
    /// As of a socket. What the other end says of this one's certificate is an error that has a [`Flaw`].
    fn read(&mut self, stream: &mut TcpStream, room: &mut [u8]) -> io::Result<usize>;
    /// As of a socket: how many of the bytes were written. Where it would block, the next bytes begin with these.
    fn write(&mut self, stream: &mut TcpStream, bytes: &[u8]) -> io::Result<usize>;
    /// Whether the other end's certificate names this space of the world.
    fn names(&self, space: SpaceId) -> bool;
    /// Says that nothing more is written.
    fn end(&mut self, stream: &mut TcpStream);
}

/// Gives a seal to each connection of a node.
pub(crate) trait Sealer: Send + Sync {
    /// For one that came.
    fn accepts(&self) -> Result<Box<dyn Seal>, Flaw>;
    /// For one that was opened to a space of a line.
    fn connects(&self, line: &Line) -> Result<Box<dyn Seal>, Flaw>;
}

/// A connection.
pub(crate) struct Wire {
    pub(crate) stream: TcpStream,
    seal: Option<Box<dyn Seal>>,
}

impl Wire {
    pub(crate) fn plain(stream: TcpStream) -> Wire {
        Wire { stream, seal: None }
    }

    pub(crate) fn sealed(stream: TcpStream, seal: Box<dyn Seal>) -> Wire {
        Wire { stream, seal: Some(seal) }
    }

    pub(crate) fn is_sealed(&self) -> bool {
        self.seal.is_some()
    }

    /// Whether nothing speaks against it that the other end is this space.
    pub(crate) fn may_be(&self, space: SpaceId) -> bool {
        self.seal.as_ref().is_none_or(|seal| seal.names(space))
    }

    pub(crate) fn shake(&mut self) -> Result<bool, Flaw> {
        self.seal.as_mut().map_or(Ok(true), |seal| seal.shake(&mut self.stream))
    }

    pub(crate) fn end(&mut self) {
        if let Some(seal) = &mut self.seal {
            seal.end(&mut self.stream);
        }
    }
}

impl Read for Wire {
    fn read(&mut self, room: &mut [u8]) -> io::Result<usize> {
        match &mut self.seal {
            Some(seal) => seal.read(&mut self.stream, room),
            None => self.stream.read(room),
        }
    }
}

impl Write for Wire {
    fn write(&mut self, bytes: &[u8]) -> io::Result<usize> {
        match &mut self.seal {
            Some(seal) => seal.write(&mut self.stream, bytes),
            None => self.stream.write(bytes),
        }
    }

    fn flush(&mut self) -> io::Result<()> {
        Ok(())
    }
}

/// Whether the same may be tried again when the socket says so.
pub(crate) fn is_for_later(error: &io::Error) -> bool {
    matches!(error.kind(), ErrorKind::WouldBlock | ErrorKind::NotConnected | ErrorKind::Interrupted)
}

/// What an error of a sealed connection says of a certificate.
pub(crate) fn flaw_in(error: &io::Error) -> Option<Flaw> {
    error.get_ref()?.downcast_ref().copied()
}
