//! Seals by TLS 1.3, in which both ends show certificates. All that this crate knows of rustls is in this file.

use super::peers::{Line, read};
use super::seal::{Seal, Sealer, is_for_later};
use crate::engine::{Flaw, World};
use crate::space::SpaceId;
use mio::net::TcpStream;
use rustls::client::{NoClientSessionStorage, ServerCertVerified, ServerCertVerifier};
use rustls::server::{ClientCertVerified, ClientCertVerifier, NoServerSessionStorage};
use rustls::{
    Certificate, ClientConfig, ClientConnection, Connection, DistinguishedNames, Error, PrivateKey,
    ServerConfig, ServerConnection, ServerName,
};
use std::fmt;
use std::io::{self, Cursor, ErrorKind, Read, Write};
use std::path::Path;
use std::sync::Arc;
use std::time::SystemTime;
use webpki::{
    DnsNameRef, EndEntityCert, TlsClientTrustAnchors, TlsServerTrustAnchors, TrustAnchor,
};

/// So many certificates are looked at: a node's own and those between it and the authority. Longer chains could be
/// made so that they take very long.
const LONGEST_CHAIN: usize = 3;

/// What is sealed and not written is no more than rustls takes at once, 64 KiB, and what it says by itself.
const MOST_UNWRITTEN: usize = 128 << 10;

static ALGORITHMS: [&webpki::SignatureAlgorithm; 6] = [
    &webpki::ECDSA_P256_SHA256,
    &webpki::ECDSA_P384_SHA384,
    &webpki::ED25519,
    &webpki::RSA_PKCS1_2048_8192_SHA256,
    &webpki::RSA_PKCS1_2048_8192_SHA384,
    &webpki::RSA_PKCS1_2048_8192_SHA512,
];

/// Who a node is: its certificate with the key to it, and the authority that signs those of its world. The certificate
/// has a DNS name `space-7.WORLD.masttomato` for each number that its node may have, the world being the one of
/// [`Builder::world`](crate::Builder::world), of whose name the first 16 letters count. `tools/world-certificates` of the
/// repository makes them.
///
/// ```no_run
/// use masttomato::{Identity, Node, Peers, SpaceId};
///
/// # fn main() -> Result<(), Box<dyn std::error::Error>> {
/// let identity = Identity::read("space-1.pem", "space-1.key", "authority.pem")?;
/// let node = Node::builder(SpaceId::try_from(1)?, Peers::read("world.peers")?)
///     .world("shop")
///     .tls(identity)
///     .start()?;
/// # Ok(())
/// # }
/// ```
#[derive(Clone)]
pub struct Identity {
    chain: Vec<Certificate>,
    key: PrivateKey,
    authorities: Vec<Certificate>,
    revoked: Vec<Certificate>,
}

// The key is nobody's business.
impl fmt::Debug for Identity {
    fn fmt(&self, f: &mut fmt::Formatter<'_>) -> fmt::Result {
        f.debug_struct("Identity").field("chain", &self.chain.len()).finish_non_exhaustive()
    }
}

/// Why something is no [`Identity`], or not that of a node.
///
/// ```
/// use masttomato::{BadIdentity, Identity};
///
/// let bad = Identity::from_pem("", "", "").unwrap_err();
/// assert!(matches!(bad, BadIdentity::NoCertificate));
/// assert_eq!(bad.to_string(), "there is no certificate in it");
/// ```
#[derive(Debug)]
#[non_exhaustive]
pub enum BadIdentity {
    /// A file can't be read.
    Io(io::Error),
    /// There is no certificate where the node's own one should be.
    NoCertificate,
    /// There is no private key.
    NoKey,
    /// There is no certificate of an authority, or it is none.
    NoAuthority,
    /// The key isn't the certificate's, or of a kind that isn't known.
    OtherKey,
    /// The world's name can't be part of a DNS name: it has other characters than `a` to `z`, `0` to `9` and `-` between them.
    World,
    /// The certificate doesn't name the node's space, of which this is the name.
    OtherName(String),
    /// The certificate would be refused by all others.
    Flaw(Flaw),
}

impl fmt::Display for BadIdentity {
    fn fmt(&self, f: &mut fmt::Formatter<'_>) -> fmt::Result {
        match self {
            BadIdentity::Io(error) => error.fmt(f),
            BadIdentity::NoCertificate => f.write_str("there is no certificate in it"),
            BadIdentity::NoKey => f.write_str("there is no private key in it"),
            BadIdentity::NoAuthority => f.write_str("there is no authority's certificate in it"),
            BadIdentity::OtherKey => f.write_str("the key isn't the certificate's"),
            BadIdentity::World => f.write_str(
                "with TLS a world's name has letters from a to z, digits, and - between them",
            ),
            BadIdentity::OtherName(name) => write!(f, "the certificate doesn't name {name}"),
            BadIdentity::Flaw(flaw) => write!(f, "nobody would let this node in: {flaw}"),
        }
    }
}

impl std::error::Error for BadIdentity {
    fn source(&self) -> Option<&(dyn std::error::Error + 'static)> {
        match self {
            BadIdentity::Io(error) => error.source(),
            _ => None,
        }
    }
}

impl From<io::Error> for BadIdentity {
    fn from(error: io::Error) -> BadIdentity {
        BadIdentity::Io(error)
    }
}

impl Identity {
    /// What three files in PEM say: the node's certificate, behind which those may stand that lead to the authority; its
    /// key; and the authority's own certificate, or several.
    ///
    /// ```
    /// # use masttomato::{BadIdentity, Identity};
    /// let bad = Identity::read("/no/space-1.pem", "/no/space-1.key", "/no/authority.pem").unwrap_err();
    /// assert!(matches!(bad, BadIdentity::Io(_)));
    /// ```
    ///
    /// # Errors
    /// Where they can't be read, or there is none of it in them.
    pub fn read(
        certificate: impl AsRef<Path>,
        key: impl AsRef<Path>,
        authority: impl AsRef<Path>,
    ) -> Result<Identity, BadIdentity> {
        let [certificate, key] = [read(certificate.as_ref())?, read(key.as_ref())?];
        Identity::from_pem(&certificate, &key, &read(authority.as_ref())?)
    }

    /// The same of texts.
    ///
    /// ```
    /// # use masttomato::{BadIdentity, Identity};
    /// # let [certificate, key, authority] = ["-----BEGIN CERTIFICATE-----\nAAAA\n-----END CERTIFICATE-----\n", "", ""];
    /// let identity = Identity::from_pem(certificate, key, authority);
    /// # assert!(matches!(identity, Err(BadIdentity::NoKey)));
    /// ```
    ///
    /// # Errors
    /// Where there is none of it in them.
    pub fn from_pem(
        certificate: &str,
        key: &str,
        authority: &str,
    ) -> Result<Identity, BadIdentity> {
        let chain = certificates(certificate)?;
        let authorities = certificates(authority)?;
        let keys = rustls_pemfile::read_all(&mut Cursor::new(key))?;
        let key = keys.into_iter().find_map(|item| match item {
            rustls_pemfile::Item::RSAKey(key)
            | rustls_pemfile::Item::PKCS8Key(key)
            | rustls_pemfile::Item::ECKey(key) => Some(PrivateKey(key)),
            _ => None,
        });
        match () {
            () if chain.is_empty() => Err(BadIdentity::NoCertificate),
            () => {
                let key = key.ok_or(BadIdentity::NoKey)?;
                let is_one = |one: &Certificate| TrustAnchor::try_from_cert_der(&one.0).is_ok();
                let are_some = !authorities.is_empty() && authorities.iter().all(is_one);
                are_some
                    .then_some(Identity { chain, key, authorities, revoked: Vec::new() })
                    .ok_or(BadIdentity::NoAuthority)
            }
        }
    }

    /// The same, but that it takes none of these certificates any more, a text in PEM: those of members who have lost their
    /// keys or left, or of an authority between. A certificate is known by all of its bytes. A connection that stands stays.
    ///
    /// ```no_run
    /// # use masttomato::Identity;
    /// # fn main() -> Result<(), Box<dyn std::error::Error>> {
    /// let identity = Identity::read("space-1.pem", "space-1.key", "authority.pem")?;
    /// let identity = identity.without(&std::fs::read_to_string("revoked.pem")?)?;
    /// # Ok(())
    /// # }
    /// ```
    ///
    /// # Errors
    /// Where a certificate is begun and not spelled out.
    pub fn without(mut self, revoked: &str) -> Result<Identity, BadIdentity> {
        self.revoked.extend(certificates(revoked)?);
        Ok(self)
    }

    /// What seals the connections of a node of this space.
    pub(crate) fn sealer(
        self,
        space: SpaceId,
        world: World,
    ) -> Result<Arc<dyn Sealer>, BadIdentity> {
        let world = label_of(world).ok_or(BadIdentity::World)?;
        let Identity { chain, key, authorities, revoked } = self;
        let (authorities, revoked) = (authorities.into(), revoked.into());
        let all = Verifier { authorities, revoked, world, lasts: None };
        let first = chain.first().ok_or(BadIdentity::NoCertificate)?;
        if !all.names(first, space) {
            return Err(BadIdentity::OtherName(name_of(space.get(), &all.world)));
        }
        let now = SystemTime::now();
        all.judge(&chain, now, Side::Client).map_err(BadIdentity::Flaw)?;
        all.judge(&chain, now, Side::Server).map_err(BadIdentity::Flaw)?;
        Tls::new(&chain, &key, all).map(|tls| Arc::new(tls) as Arc<dyn Sealer>)
    }
}

fn certificates(text: &str) -> Result<Vec<Certificate>, BadIdentity> {
    let all = rustls_pemfile::certs(&mut Cursor::new(text))?;
    Ok(all.into_iter().map(Certificate).collect())
}

// A world's name as a part of a DNS name, if it can be one.
fn label_of(world: World) -> Option<String> {
    let text = std::str::from_utf8(&world.0).ok()?.trim_end_matches('\0');
    let is_part = |byte: u8| matches!(byte, b'a'..=b'z' | b'0'..=b'9' | b'-');
    let is_label = !text.is_empty() && text.bytes().all(is_part);
    (is_label && !text.starts_with('-') && !text.ends_with('-')).then(|| text.to_string())
}

fn name_of(space: u16, world: &str) -> String {
    format!("space-{space}.{world}.masttomato")
}

// What an end may be used as: who connects is the client.
#[derive(Clone, Copy)]
enum Side {
    Client,
    Server,
}

/// Judges who is at the other end.
#[derive(Clone)]
struct Verifier {
    authorities: Arc<[Certificate]>,
    revoked: Arc<[Certificate]>,
    world: String,
    /// The spaces that may answer where this end connects.
    lasts: Option<(SpaceId, SpaceId)>,
}

impl Verifier {
    fn names(&self, certificate: &Certificate, space: SpaceId) -> bool {
        self.has_name(certificate, space.get()) && !self.has_name(certificate, 0)
    }

    // No space is 0: a certificate that has its name has all names.
    fn has_name(&self, certificate: &Certificate, space: u16) -> bool {
        let Ok(certificate) = EndEntityCert::try_from(&certificate.0[..]) else { return false };
        let name = name_of(space, &self.world);
        let name = DnsNameRef::try_from_ascii_str(&name);
        name.is_ok_and(|name| certificate.verify_is_valid_for_dns_name(name).is_ok())
    }

    // Whether this world's authority says, at this time, that its holder is a space that may be there.
    fn judge(&self, chain: &[Certificate], now: SystemTime, side: Side) -> Result<(), Flaw> {
        let (first, between) = chain.split_first().ok_or(Flaw::Missing)?;
        if chain.len() > LONGEST_CHAIN {
            return Err(Flaw::Unfit);
        }
        let certificate = EndEntityCert::try_from(&first.0[..]).map_err(flaw_of_chain)?;
        let between: Vec<&[u8]> = between.iter().map(|one| &one.0[..]).collect();
        let anchors = self.authorities.iter().map(|one| TrustAnchor::try_from_cert_der(&one.0));
        let anchors: Vec<TrustAnchor<'_>> =
            anchors.collect::<Result<_, _>>().map_err(flaw_of_chain)?;
        let time = webpki::Time::try_from(now).map_err(|_| Flaw::NotYet)?;
        match side {
            Side::Client => {
                let anchors = TlsClientTrustAnchors(&anchors);
                certificate.verify_is_valid_tls_client_cert(&ALGORITHMS, &anchors, &between, time)
            }
            Side::Server => {
                let anchors = TlsServerTrustAnchors(&anchors);
                certificate.verify_is_valid_tls_server_cert(&ALGORITHMS, &anchors, &between, time)
            }
        }
        .map_err(flaw_of_chain)?;
        if chain.iter().any(|one| self.revoked.contains(one)) {
            return Err(Flaw::Revoked);
        }
        let mut all = (1..=SpaceId::MOST).filter_map(SpaceId::new);
        let may_be =
            |space: &SpaceId| self.lasts.is_none_or(|(first, last)| (first..=last).contains(space));
        let is_one = all.any(|space| may_be(&space) && self.names(first, space));
        if is_one { Ok(()) } else { Err(Flaw::OtherName) }
    }
}

fn flaw_of_chain(error: webpki::Error) -> Flaw {
    match error {
        webpki::Error::CertExpired => Flaw::Expired,
        webpki::Error::CertNotValidYet => Flaw::NotYet,
        webpki::Error::UnknownIssuer | webpki::Error::InvalidSignatureForPublicKey => {
            Flaw::OtherAuthority
        }
        _ => Flaw::Unfit,
    }
}

// rustls has no error of its own that says which flaw it is: so the word goes through it.
fn error_of(flaw: Flaw) -> Error {
    Error::General(flaw.to_string())
}

fn flaw_of(error: &Error) -> Flaw {
    let ours = [
        Flaw::OtherAuthority,
        Flaw::Expired,
        Flaw::NotYet,
        Flaw::OtherName,
        Flaw::Unfit,
        Flaw::Missing,
        Flaw::Revoked,
    ];
    match error {
        Error::General(text) => {
            ours.into_iter().find(|flaw| flaw.to_string() == *text).unwrap_or(Flaw::Broken)
        }
        Error::NoCertificatesPresented => Flaw::Missing,
        Error::AlertReceived(_) => Flaw::Refused,
        Error::InvalidCertificateEncoding
        | Error::InvalidCertificateSignature
        | Error::InvalidCertificateSignatureType
        | Error::InvalidCertificateData(_) => Flaw::Unfit,
        _ => Flaw::NoTls,
    }
}

impl ClientCertVerifier for Verifier {
    // Which authority it is isn't told to strangers.
    fn client_auth_root_subjects(&self) -> Option<DistinguishedNames> {
        Some(DistinguishedNames::new())
    }

    fn verify_client_cert(
        &self,
        first: &Certificate,
        between: &[Certificate],
        now: SystemTime,
    ) -> Result<ClientCertVerified, Error> {
        let chain = [std::slice::from_ref(first), between].concat();
        self.judge(&chain, now, Side::Client).map_err(error_of)?;
        Ok(ClientCertVerified::assertion())
    }
}

impl ServerCertVerifier for Verifier {
    fn verify_server_cert(
        &self,
        first: &Certificate,
        between: &[Certificate],
        _: &ServerName,
        _: &mut dyn Iterator<Item = &[u8]>,
        _: &[u8],
        now: SystemTime,
    ) -> Result<ServerCertVerified, Error> {
        let chain = [std::slice::from_ref(first), between].concat();
        self.judge(&chain, now, Side::Server).map_err(error_of)?;
        Ok(ServerCertVerified::assertion())
    }
}

/// What seals a node's connections.
struct Tls {
    server: Arc<ServerConfig>,
    client: ClientConfig,
    verifier: Verifier,
}

impl Tls {
    fn new(
        chain: &[Certificate],
        key: &PrivateKey,
        verifier: Verifier,
    ) -> Result<Tls, BadIdentity> {
        let other = |_| BadIdentity::OtherKey;
        let versions = &[&rustls::version::TLS13];
        let mut server = ServerConfig::builder()
            .with_safe_default_cipher_suites()
            .with_safe_default_kx_groups()
            .with_protocol_versions(versions)
            .map_err(other)?
            .with_client_cert_verifier(Arc::new(verifier.clone()))
            .with_single_cert(chain.to_vec(), key.clone())
            .map_err(other)?;
        let mut client = ClientConfig::builder()
            .with_safe_default_cipher_suites()
            .with_safe_default_kx_groups()
            .with_protocol_versions(versions)
            .map_err(other)?
            .with_custom_certificate_verifier(Arc::new(verifier.clone()))
            .with_single_cert(chain.to_vec(), key.clone())
            .map_err(other)?;
        // Each connection shows certificates, which may have expired since the one before.
        server.session_storage = Arc::new(NoServerSessionStorage {});
        client.session_storage = Arc::new(NoClientSessionStorage {});
        client.enable_sni = false;
        Ok(Tls { server: Arc::new(server), client, verifier })
    }
}

impl Sealer for Tls {
    fn accepts(&self) -> Result<Box<dyn Seal>, Flaw> {
        let connection = ServerConnection::new(self.server.clone()).map_err(|_| Flaw::Broken)?;
        Ok(Sealed::boxed(Connection::Server(connection), &self.verifier))
    }

    fn connects(&self, line: &Line) -> Result<Box<dyn Seal>, Flaw> {
        let verifier = Verifier { lasts: Some((line.first, line.last)), ..self.verifier.clone() };
        let mut client = self.client.clone();
        client.dangerous().set_certificate_verifier(Arc::new(verifier));
        let name = name_of(line.first.get(), &self.verifier.world);
        let name = ServerName::try_from(&name[..]).map_err(|_| Flaw::Broken)?;
        let connection = ClientConnection::new(Arc::new(client), name).map_err(|_| Flaw::Broken)?;
        Ok(Sealed::boxed(Connection::Client(connection), &self.verifier))
    }
}

/// The seal of a connection.
struct Sealed {
    connection: Connection,
    verifier: Verifier,
    // So many of the bytes that are to be written were sealed, and not all of that was written.
    sealed: usize,
}

impl Sealed {
    fn boxed(connection: Connection, verifier: &Verifier) -> Box<dyn Seal> {
        Box::new(Sealed { connection, verifier: verifier.clone(), sealed: 0 })
    }

    fn flush(&mut self, stream: &mut TcpStream) -> io::Result<()> {
        while self.connection.wants_write() {
            if self.connection.write_tls(stream)? == 0 {
                return Err(ErrorKind::WriteZero.into());
            }
        }
        Ok(())
    }

    // Takes what came: none where the other end has ended.
    fn take(&mut self, stream: &mut TcpStream) -> io::Result<usize> {
        let count = self.connection.read_tls(stream)?;
        match self.connection.process_new_packets() {
            // Whoever asks for more of TLS's own answers than it reads is up to no good.
            Ok(state) if state.tls_bytes_to_write() > MOST_UNWRITTEN => {
                return Err(io::Error::new(ErrorKind::InvalidData, Flaw::Broken));
            }
            Ok(_) => {}
            Err(error) => {
                // The other end is told, if it can be.
                let _told = self.flush(stream);
                return Err(io::Error::new(ErrorKind::InvalidData, flaw_of(&error)));
            }
        }
        // What can't be written is said to who writes next; what came is heard all the same.
        let _flushed = self.flush(stream);
        Ok(count)
    }
}

impl Seal for Sealed {
    fn shake(&mut self, stream: &mut TcpStream) -> Result<bool, Flaw> {
        loop {
            match self.flush(stream) {
                Err(error) if !is_for_later(&error) => return Err(Flaw::Broken),
                Ok(()) if !self.connection.is_handshaking() => return Ok(true),
                _ => {}
            }
            match self.take(stream) {
                Ok(0) => return Err(Flaw::Broken),
                Ok(_) => {}
                Err(error) if error.kind() == ErrorKind::Interrupted => {}
                Err(error) if is_for_later(&error) => return Ok(false),
                Err(error) => return Err(super::seal::flaw_in(&error).unwrap_or(Flaw::Broken)),
            }
        }
    }

    fn read(&mut self, stream: &mut TcpStream, room: &mut [u8]) -> io::Result<usize> {
        loop {
            match self.connection.reader().read(room) {
                Err(error) if error.kind() == ErrorKind::WouldBlock => {}
                done => return done,
            }
            if self.take(stream)? == 0 {
                return Ok(0);
            }
        }
    }

    fn write(&mut self, stream: &mut TcpStream, bytes: &[u8]) -> io::Result<usize> {
        if self.sealed == 0 {
            self.sealed = self.connection.writer().write(bytes)?;
        }
        self.flush(stream)?;
        Ok(std::mem::take(&mut self.sealed))
    }

    fn names(&self, space: SpaceId) -> bool {
        let chain = self.connection.peer_certificates();
        let first = chain.and_then(<[Certificate]>::first);
        first.is_some_and(|first| self.verifier.names(first, space))
    }

    fn end(&mut self, stream: &mut TcpStream) {
        self.connection.send_close_notify();
        // What can't be written at once isn't any more.
        let _written = self.flush(stream);
    }
}
