//! TLS, by the system's OpenSSL: how a proxy shows who it is, and how servers are asked who they are.

use crate::args::Args;
use crate::fault::{Done, Fault, Trying};
use openssl::ssl::{
    self, Ssl, SslAcceptor, SslConnector, SslConnectorBuilder, SslContextBuilder, SslFiletype, SslMethod,
    SslStream, SslVerifyMode, SslVersion,
};
use openssl::x509::store::X509StoreBuilder;
use openssl::x509::X509VerifyResult;
use std::error::Error;
use std::io::{self, Read, Write};
use std::net::IpAddr;
use std::ops::DerefMut;
use std::sync::{Arc, Mutex, MutexGuard, PoisonError};

/// The options by which a program connects to servers by TLS, and those of its flags.
pub const OPTIONS: [&str; 3] = ["tls-ca", "tls-own-cert", "tls-own-key"];
pub const FLAGS: [&str; 2] = ["tls-partitions", "tls-bus"];

/// How to connect to one server by TLS.
#[derive(Clone)]
pub struct Peer {
    connector: Arc<Mutex<SslConnector>>,
    /// The name or address that its certificate has to have.
    host: String,
}

impl Peer {
    /// The server of an address `HOST:PORT`, if the flag asks for TLS.
    ///
    /// # Errors
    ///
    /// A file of certificates or keys can't be read.
    pub fn of(args: &Args, flag: &str, addr: &str) -> Done<Option<Peer>> {
        if args.has(flag) {
            Peer::new(args, addr).map(Some)
        } else {
            Ok(None)
        }
    }

    /// The same without a flag.
    ///
    /// # Errors
    ///
    /// A file of certificates or keys can't be read.
    pub fn new(args: &Args, addr: &str) -> Done<Peer> {
        let host = addr.rsplit_once(':').map_or(addr, |(host, _)| host);
        let host = host.trim_start_matches('[').trim_end_matches(']').to_string();
        if host.is_empty() {
            return Err(Fault::new(format!("{addr}: no name that a certificate could have")));
        }
        let connector = connector(args).map(SslConnectorBuilder::build)?;
        Ok(Peer { connector: Arc::new(Mutex::new(connector)), host })
    }

    fn lock(&self) -> MutexGuard<'_, SslConnector> {
        self.connector.lock().unwrap_or_else(PoisonError::into_inner)
    }

    /// Reads all files again. New connections take what they say.
    ///
    /// # Errors
    ///
    /// A file of certificates or keys can't be read. Then all stays as it is.
    pub fn renew(&self, args: &Args) -> Done<()> {
        *self.lock() = connector(args)?.build();
        Ok(())
    }

    /// Whether it is shown a certificate, if it asks for one.
    pub fn has_own(&self) -> bool {
        self.lock().context().certificate().is_some()
    }

    /// The session of a connection to it, before its handshake.
    fn session(&self) -> Done<Ssl> {
        let is_name = self.host.parse::<IpAddr>().is_err();
        let config = self.lock().configure().and_then(|mut config| {
            config.set_use_server_name_indication(is_name);
            config.into_ssl(&self.host)
        });
        let mut session = config.trying(|| format!("TLS to {}", self.host))?;
        session.set_connect_state();
        Ok(session)
    }

    /// Begins TLS over a connection. Its first reads and writes make the handshake.
    ///
    /// # Errors
    ///
    /// OpenSSL has refused it.
    pub fn begin<S: Read + Write>(&self, stream: S) -> Done<SslStream<S>> {
        SslStream::new(self.session()?, stream).trying(|| format!("TLS to {}", self.host))
    }
}

/// What the words of the command line say of connections to servers. Without `--tls-ca` the system's
/// certificates count.
fn connector(args: &Args) -> Done<SslConnectorBuilder> {
    let mut builder = SslConnector::builder(SslMethod::tls()).trying(|| "TLS".to_string())?;
    builder.set_min_proto_version(Some(SslVersion::TLS1_2)).trying(|| "TLS".to_string())?;
    if let Some(path) = args.get("tls-ca") {
        let store = X509StoreBuilder::new().trying(|| "TLS".to_string())?;
        builder.set_cert_store(store.build());
        builder.set_ca_file(path).trying(|| format!("--tls-ca {path}"))?;
    }
    show(&mut builder, args, "tls-own-cert", "tls-own-key")?;
    Ok(builder)
}

/// Shows a certificate, if one is given, with its key.
fn show<B>(builder: &mut B, args: &Args, cert: &str, key: &str) -> Done<()>
where
    B: DerefMut<Target = SslContextBuilder>,
{
    if !args.has(cert) && !args.has(key) {
        return Ok(());
    }
    let (cert_file, key_file) = (args.need(cert)?, args.need(key)?);
    builder.set_certificate_chain_file(cert_file).trying(|| format!("--{cert} {cert_file}"))?;
    let taken = builder.set_private_key_file(key_file, SslFiletype::PEM);
    taken.trying(|| format!("--{key} {key_file}"))?;
    builder.check_private_key().trying(|| format!("--{key} {key_file}"))
}

/// How clients are let in by TLS.
pub struct Acceptor(SslAcceptor);

impl Acceptor {
    /// What the words of the command line say: none if clients connect without TLS.
    ///
    /// # Errors
    ///
    /// A file of certificates or keys can't be read, or one of the options lacks the other one.
    pub fn of(args: &Args) -> Done<Option<Acceptor>> {
        if !["tls-cert", "tls-key", "tls-client-ca"].iter().any(|name| args.has(name)) {
            return Ok(None);
        }
        args.need("tls-cert")?;
        let builder = SslAcceptor::mozilla_intermediate_v5(SslMethod::tls());
        let mut builder = builder.trying(|| "TLS".to_string())?;
        show(&mut builder, args, "tls-cert", "tls-key")?;
        if let Some(path) = args.get("tls-client-ca") {
            builder.set_ca_file(path).trying(|| format!("--tls-client-ca {path}"))?;
            builder.set_verify(SslVerifyMode::PEER | SslVerifyMode::FAIL_IF_NO_PEER_CERT);
        }
        Ok(Some(Acceptor(builder.build())))
    }

    /// Begins TLS over a client's connection. Its first reads make the handshake.
    ///
    /// # Errors
    ///
    /// OpenSSL has refused it.
    pub fn begin<S: Read + Write>(&self, stream: S) -> Done<SslStream<S>> {
        let session = Ssl::new(self.0.context()).and_then(|mut session| {
            session.set_accept_state();
            SslStream::new(session, stream)
        });
        session.trying(|| "TLS".to_string())
    }
}

/// Why a handshake or a session has failed.
pub fn why<S>(stream: &SslStream<S>, error: &(dyn Error + 'static)) -> String {
    match stream.ssl().verify_result() {
        X509VerifyResult::OK => format!("TLS: {}", reason(error).unwrap_or_else(|| error.to_string())),
        refused => format!("TLS: the certificate is refused: {}", refused.error_string()),
    }
}

/// What OpenSSL says of an error, without the places in its sources.
fn reason(error: &(dyn Error + 'static)) -> Option<String> {
    let within = error.downcast_ref::<io::Error>().and_then(io::Error::get_ref);
    let own = match within {
        Some(within) => within.downcast_ref::<ssl::Error>(),
        None => error.downcast_ref::<ssl::Error>(),
    };
    let reasons: Vec<&str> = own?.ssl_error()?.errors().iter().filter_map(|it| it.reason()).collect();
    (!reasons.is_empty()).then(|| reasons.join(", "))
}

/// Tells the other end that no more comes, if the connection takes that now.
pub fn end<S: Read + Write>(stream: &mut SslStream<S>) {
    if stream.ssl().is_init_finished() {
        // If it is gone, or reads too slowly, it learns it from the connection.
        let _ = stream.shutdown();
    }
}
