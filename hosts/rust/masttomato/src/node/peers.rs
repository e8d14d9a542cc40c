//! Where the spaces of a world are.

use crate::space::SpaceId;
use std::fmt;
use std::net::{SocketAddr, ToSocketAddrs};
use std::path::Path;
use std::{fs, io};

/// The spaces of a world and their addresses, from a text with a line each, as `2 orders.example:7000`; or
/// for several that live one after the other, since a process that starts again takes the next number,
/// `1..=8 orders.example:7000`. What stands behind a `#` isn't read.
///
/// ```
/// # use masttomato::{Peers, SpaceId};
/// let peers: Peers = "1..=8 127.0.0.1:7001   # orders\n9 127.0.0.1:7002".parse()?;
/// assert_eq!(peers.last(), SpaceId::new(9));
/// # Ok::<(), masttomato::BadPeers>(())
/// ```
#[derive(Clone, Debug, Default, PartialEq, Eq, Hash)]
pub struct Peers {
    lines: Vec<Line>,
}

#[derive(Clone, Debug, PartialEq, Eq, Hash)]
pub(crate) struct Line {
    pub(crate) first: SpaceId,
    pub(crate) last: SpaceId,
    pub(crate) address: String,
}

impl Line {
    pub(crate) fn has(&self, space: SpaceId) -> bool {
        (self.first..=self.last).contains(&space)
    }

    pub(crate) fn addresses(&self) -> io::Result<Vec<SocketAddr>> {
        Ok(self.address.to_socket_addrs()?.collect())
    }
}

/// A line of a list of peers that says none, by its number.
///
/// ```
/// # use masttomato::Peers;
/// let bad = "1 127.0.0.1:7001\n33 127.0.0.1:7002".parse::<Peers>().unwrap_err();
/// assert!(bad.to_string().starts_with("line 2: a number from 1 to 32"));
/// ```
#[derive(Clone, Copy, Debug, PartialEq, Eq, Hash)]
pub struct BadPeers {
    line: usize,
}

impl fmt::Display for BadPeers {
    fn fmt(&self, f: &mut fmt::Formatter<'_>) -> fmt::Result {
        write!(
            f,
            "line {}: a number from 1 to 32 or a range, and an address, are wanted",
            self.line
        )
    }
}

impl std::error::Error for BadPeers {}

impl std::str::FromStr for Peers {
    type Err = BadPeers;

    fn from_str(text: &str) -> Result<Peers, BadPeers> {
        let mut peers = Peers::none();
        for (place, line) in text.lines().enumerate() {
            let line = line.split('#').next().unwrap_or_default().trim();
            if !line.is_empty() {
                peers.lines.push(line_of(line).ok_or(BadPeers { line: place + 1 })?);
            }
        }
        Ok(peers)
    }
}

/// What a file says; an error names it.
pub(crate) fn read(path: &Path) -> io::Result<String> {
    fs::read_to_string(path).map_err(|error| of_file(path, error))
}

fn of_file(path: &Path, error: io::Error) -> io::Error {
    io::Error::new(error.kind(), format!("{}: {error}", path.display()))
}

fn line_of(line: &str) -> Option<Line> {
    let (spaces, address) = line.split_once(char::is_whitespace)?;
    let space = |text: &str| SpaceId::new(text.parse().ok()?);
    let (first, last) = match spaces.split_once("..=") {
        Some((first, last)) => (space(first)?, space(last)?),
        None => (space(spaces)?, space(spaces)?),
    };
    let address = address.trim().to_string();
    (first <= last && address.contains(':')).then_some(Line { first, last, address })
}

impl Peers {
    /// No other space.
    ///
    /// ```
    /// # use masttomato::Peers;
    /// assert_eq!(Peers::none().last(), None);
    /// ```
    pub fn none() -> Peers {
        Peers::default()
    }

    /// The peers that a file says.
    ///
    /// ```
    /// # use masttomato::{Peers, SpaceId};
    /// # let path = std::env::temp_dir().join(format!("masttomato-peers-{}", std::process::id()));
    /// std::fs::write(&path, "1 127.0.0.1:7001       # who has the counter\n2..=32 127.0.0.1:0\n")?;
    /// assert_eq!(Peers::read(&path)?.last(), SpaceId::new(32));
    /// # std::fs::remove_file(&path)?;
    /// # Ok::<(), std::io::Error>(())
    /// ```
    ///
    /// # Errors
    /// Where it can't be read, or a line says none.
    pub fn read(path: impl AsRef<Path>) -> io::Result<Peers> {
        let path = path.as_ref();
        let bad = |bad| of_file(path, io::Error::new(io::ErrorKind::InvalidData, bad));
        read(path)?.parse().map_err(bad)
    }

    /// These, and a space at an address.
    ///
    /// ```
    /// # use masttomato::{Peers, SpaceId};
    /// let peers = Peers::none().with(SpaceId::try_from(4)?, "127.0.0.1:7004");
    /// assert_eq!(peers.last().map(SpaceId::get), Some(4));
    /// # Ok::<(), masttomato::space::NoSpace>(())
    /// ```
    #[must_use = "these are other peers, and the old ones are gone"]
    pub fn with(mut self, space: SpaceId, address: impl fmt::Display) -> Peers {
        self.lines.push(Line { first: space, last: space, address: address.to_string() });
        self
    }

    /// The last space that is named.
    ///
    /// ```
    /// # use masttomato::{Peers, SpaceId};
    /// assert_eq!("3 127.0.0.1:7003\n1 127.0.0.1:7001".parse::<Peers>()?.last(), SpaceId::new(3));
    /// # Ok::<(), masttomato::BadPeers>(())
    /// ```
    pub fn last(&self) -> Option<SpaceId> {
        self.lines.iter().map(|line| line.last).max()
    }

    pub(crate) fn lines(&self) -> &[Line] {
        &self.lines
    }
}
