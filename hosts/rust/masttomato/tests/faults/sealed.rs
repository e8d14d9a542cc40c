//! Worlds whose connections are sealed: with the feature `tls`, and where openssl is there to make certificates.

use crate::SPACES;
use masttomato::Builder;
use std::path::{Path, PathBuf};
use std::process::Command;

/// The name of all worlds, which certificates have in them.
pub const WORLD: &str = "faults";

/// Where the certificates of a world are, if it has some.
fn certificates(folder: &Path) -> PathBuf {
    folder.join("certificates")
}

/// Makes certificates for a world: whether they can be made.
pub fn make(folder: &Path) -> bool {
    if !cfg!(feature = "tls") || Command::new("openssl").arg("version").output().is_err() {
        return false;
    }
    let tool = Path::new(env!("CARGO_MANIFEST_DIR")).join("../../../tools/world-certificates");
    let mut command = Command::new(tool);
    command.arg(certificates(folder)).args([WORLD, "1", &format!("2..={SPACES}")]);
    let done = command.output().expect("the tool runs");
    assert!(done.status.success(), "{}", String::from_utf8_lossy(&done.stderr));
    true
}

/// The node of this number shows its certificate, in a world that has some.
#[cfg(feature = "tls")]
pub fn shown(builder: Builder, number: u16, folder: &Path) -> Builder {
    let certificates = certificates(folder);
    if !certificates.is_dir() {
        return builder;
    }
    let name = if number == 1 { "space-1".into() } else { format!("space-2-{SPACES}") };
    let file = |ending: &str| certificates.join(format!("{name}.{ending}"));
    let authority = certificates.join("authority.pem");
    let identity = masttomato::Identity::read(file("pem"), file("key"), authority);
    builder.tls(identity.expect("an identity"))
}

/// No node shows any.
#[cfg(not(feature = "tls"))]
pub fn shown(builder: Builder, _number: u16, _folder: &Path) -> Builder {
    builder
}
