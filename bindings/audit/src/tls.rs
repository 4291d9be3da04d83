//! TLS of one side of a connection, over bytes: what came of the socket is put in, what is to go is
//! taken out. This is the only file that knows OpenSSL.

use crate::file::{open_secret, say};
use crate::tls_settings::{read_key, OfServer, TlsOptions};
use openssl::encrypt::Decrypter;
use openssl::error::ErrorStack;
use openssl::pkey::{Id, PKey, Private};
use openssl::rsa::{Padding, Rsa};
use openssl::ssl::{
    ErrorCode, Ssl, SslContext, SslContextBuilder, SslMethod, SslMode, SslOptions, SslSession,
    SslSessionCacheMode, SslStream, SslVerifyMode, SslVersion,
};
use std::fs::File;
use std::io::{self, ErrorKind, Read, Write};
use std::mem;
use std::net::TcpStream;
use std::sync::{Arc, Mutex, PoisonError};

/// What a side with TLS takes of memory, beside the bytes that wait.
const MEMORY: usize = 30_000;
/// Room for output isn't kept where it is more.
const SPARE: usize = 1 << 12;

/// What connections share of TLS.
pub struct Contexts {
    client: Option<SslContext>,
    server: SslContext,
    /// The name that the server's certificate has to have.
    name: Option<String>,
    /// The last session with the server, from which the next one goes on.
    session: Arc<Mutex<Option<SslSession>>>,
    /// By which plain clients hide a password, where the server's side alone has TLS.
    key: Option<PKey<Private>>,
}

/// What went wrong with something of TLS.
fn said(what: &str) -> impl FnOnce(ErrorStack) -> String + '_ {
    move |error| format!("{what}: {error}")
}

type KeyLog = Option<Arc<File>>;

/// The file for the keys of sessions, by which captures can be read.
fn key_log(options: &TlsOptions) -> Result<KeyLog, String> {
    let Some(path) = &options.key_log else {
        return Ok(None);
    };
    let file = open_secret(path.as_ref()).map_err(|error| format!("{path}: {error}"))?;
    say(&format!("the keys of TLS go to {path}"));
    Ok(Some(Arc::new(file)))
}

fn builder(method: SslMethod, keys: &KeyLog) -> Result<SslContextBuilder, String> {
    let mut builder = SslContext::builder(method).map_err(said("TLS"))?;
    if let Some(file) = keys.clone() {
        builder.set_keylog_callback(move |_, line| {
            // Who can't be decrypted later is served all the same.
            let _ = (&*file).write_all(format!("{line}\n").as_bytes());
        });
    }
    let least = Some(SslVersion::TLS1_2);
    builder.set_min_proto_version(least).map_err(said("TLS"))?;
    builder.set_options(SslOptions::NO_COMPRESSION | SslOptions::NO_RENEGOTIATION);
    // A connection that says nothing keeps no buffers.
    builder.set_mode(
        SslMode::RELEASE_BUFFERS
            | SslMode::ENABLE_PARTIAL_WRITE
            | SslMode::ACCEPT_MOVING_WRITE_BUFFER,
    );
    Ok(builder)
}

/// The proxy's certificate, for clients.
fn context_for_clients(
    cert: &str,
    path: &str,
    key: &PKey<Private>,
    keys: &KeyLog,
) -> Result<SslContext, String> {
    let mut of = builder(SslMethod::tls_server(), keys)?;
    of.set_certificate_chain_file(cert).map_err(said(cert))?;
    of.set_private_key(key).map_err(said(path))?;
    of.check_private_key().map_err(said(path))?;
    of.set_session_cache_mode(SslSessionCacheMode::OFF);
    of.set_options(SslOptions::NO_TICKET);
    Ok(of.build())
}

/// How the server's certificate is checked. Sessions are kept in this place.
fn context_for_server(
    options: &TlsOptions,
    session: &Arc<Mutex<Option<SslSession>>>,
    keys: &KeyLog,
) -> Result<SslContext, String> {
    let mut of = builder(SslMethod::tls_client(), keys)?;
    match (options.server.verifies(), options.server_ca.as_deref()) {
        (true, Some(file)) => of.set_ca_file(file).map_err(said(file))?,
        (true, None) => of.set_default_verify_paths().map_err(said("the CAs"))?,
        (false, _) => {}
    }
    of.set_verify(match options.server.verifies() {
        true => SslVerifyMode::PEER,
        false => SslVerifyMode::NONE,
    });
    let kept = session.clone();
    of.set_session_cache_mode(SslSessionCacheMode::CLIENT | SslSessionCacheMode::NO_INTERNAL);
    of.set_new_session_callback(move |_, session| {
        *kept.lock().unwrap_or_else(PoisonError::into_inner) = Some(session);
    });
    Ok(of.build())
}

impl Contexts {
    /// What these settings need of TLS, where any is spoken.
    ///
    /// # Errors
    /// A file can't be read, or others can read the key.
    pub fn new(options: &TlsOptions, upstream: &str) -> Result<Option<Contexts>, String> {
        if !options.is_spoken() {
            return Ok(None);
        }
        let (mut client, mut key, keys) = (None, None, key_log(options)?);
        if let (Some(cert), Some(path)) = (&options.cert, &options.key) {
            let pem = read_key(path)?;
            let private = PKey::private_key_from_pem(&pem).map_err(said(path))?;
            client = Some(context_for_clients(cert, path, &private, &keys)?);
            key = Some(private).filter(|it| it.id() == Id::RSA);
        }
        if options.alone && key.is_none() {
            let made = Rsa::generate(2048).and_then(PKey::from_rsa);
            key = Some(made.map_err(said("a key"))?);
        }
        let session = Arc::default();
        Ok(Some(Contexts {
            client: client.filter(|_| options.serves()),
            server: context_for_server(options, &session, &keys)?,
            name: options.name_to_check(upstream).map(str::to_string),
            session,
            key: key.filter(|_| options.alone && options.server != OfServer::Disabled),
        }))
    }

    /// Begins TLS with a client.
    pub fn accept(&self) -> Result<Tls, String> {
        let context = self.client.as_ref().ok_or("clients have no TLS")?;
        Tls::of(Ssl::new(context).map_err(said("TLS"))?, true)
    }

    /// Begins TLS with the server, behind this request for it.
    pub fn connect(&self, request: &[u8]) -> Result<Tls, String> {
        let mut ssl = Ssl::new(&self.server).map_err(said("TLS"))?;
        if let Some(name) = &self.name {
            let set = match name.parse() {
                Ok(address) => ssl.param_mut().set_ip(address),
                Err(_) => ssl
                    .set_hostname(name)
                    .and_then(|()| ssl.param_mut().set_host(name)),
            };
            set.map_err(said(name))?;
        }
        let session = self.session.lock();
        if let Some(session) = &*session.unwrap_or_else(PoisonError::into_inner) {
            // SAFETY: the session is of the same context, whose callback put it there.
            unsafe { ssl.set_session(session) }.map_err(said("TLS"))?;
        }
        let mut tls = Tls::of(ssl, false)?;
        tls.stream.get_mut().output.extend_from_slice(request);
        Ok(tls)
    }

    /// The public half of the key for passwords, as clients ask for it.
    pub fn public_key(&self) -> Option<Vec<u8>> {
        self.key.as_ref()?.public_key_to_pem().ok()
    }

    /// What was hidden by that key.
    pub fn decrypt(&self, cipher: &[u8]) -> Option<Vec<u8>> {
        let mut of = Decrypter::new(self.key.as_ref()?).ok()?;
        of.set_rsa_padding(Padding::PKCS1_OAEP).ok()?;
        let mut clear = vec![0; of.decrypt_len(cipher).ok()?];
        let count = of.decrypt(cipher, &mut clear).ok()?;
        clear.truncate(count);
        Some(clear)
    }
}

/// What TLS reads and writes in place of a socket.
#[derive(Default)]
struct Wire {
    input: Vec<u8>,
    /// How many bytes of it were read.
    at: usize,
    has_ended: bool,
    output: Vec<u8>,
    /// How many bytes of it were sent.
    sent: usize,
}

impl Read for Wire {
    fn read(&mut self, to: &mut [u8]) -> io::Result<usize> {
        let left = &self.input[self.at..];
        if left.is_empty() && !self.has_ended {
            return Err(ErrorKind::WouldBlock.into());
        }
        let count = left.len().min(to.len());
        to[..count].copy_from_slice(&left[..count]);
        self.at += count;
        if self.at == self.input.len() {
            (self.input, self.at) = (Vec::new(), 0);
        }
        Ok(count)
    }
}

impl Write for Wire {
    fn write(&mut self, from: &[u8]) -> io::Result<usize> {
        self.output.extend_from_slice(from);
        Ok(from.len())
    }

    fn flush(&mut self) -> io::Result<()> {
        Ok(())
    }
}

/// One side's TLS.
pub struct Tls {
    stream: SslStream<Wire>,
    is_accepted: bool,
    is_done: bool,
}

impl Tls {
    fn of(ssl: Ssl, is_accepted: bool) -> Result<Tls, String> {
        Ok(Tls {
            stream: SslStream::new(ssl, Wire::default()).map_err(said("TLS"))?,
            is_accepted,
            is_done: false,
        })
    }

    /// Takes what came of the socket.
    pub fn take(&mut self, bytes: &[u8]) {
        self.stream.get_mut().input.extend_from_slice(bytes);
    }

    /// Notes that nothing more comes of the socket.
    pub fn end(&mut self) {
        self.stream.get_mut().has_ended = true;
    }

    /// Whether the handshake is done.
    pub fn is_done(&self) -> bool {
        self.is_done
    }

    /// Goes on with the handshake. Says whether it is done.
    pub fn shake(&mut self) -> Result<bool, String> {
        if self.is_done {
            return Ok(true);
        }
        let went = match self.is_accepted {
            true => self.stream.accept(),
            false => self.stream.connect(),
        };
        match went {
            Ok(()) => self.is_done = true,
            Err(error) if error.code() == ErrorCode::WANT_READ => {}
            Err(error) => {
                let verified = self.stream.ssl().verify_result();
                return Err(match verified.as_raw() {
                    0 => error.to_string(),
                    _ => verified.error_string().to_string(),
                });
            }
        }
        Ok(self.is_done)
    }

    /// Reads into this room. None is the end of the stream, by a word or without, and what is no
    /// TLS; 0 says that more has to come.
    pub fn read(&mut self, to: &mut [u8]) -> Option<usize> {
        match self.stream.ssl_read(to) {
            Ok(count) => Some(count),
            Err(error) if error.code() == ErrorCode::WANT_READ => Some(0),
            Err(_) => None,
        }
    }

    /// Takes bytes that are to go, and says how many.
    pub fn write(&mut self, bytes: &[u8]) -> io::Result<usize> {
        match self.stream.ssl_write(bytes) {
            Ok(count) => Ok(count),
            Err(error) if error.code() == ErrorCode::WANT_READ => Ok(0),
            Err(error) => Err(io::Error::other(error)),
        }
    }

    /// Says that nothing more is written.
    pub fn close(&mut self) {
        // Whether the other end said so before doesn't matter.
        let _ = self.stream.shutdown();
    }

    pub fn is_flushed(&self) -> bool {
        self.stream.get_ref().output.is_empty()
    }

    /// Sends what is to go. Says whether all went.
    pub fn flush(&mut self, mut to: &TcpStream) -> io::Result<bool> {
        let wire = self.stream.get_mut();
        while wire.sent < wire.output.len() {
            match to.write(&wire.output[wire.sent..]) {
                Ok(0) => return Err(ErrorKind::WriteZero.into()),
                Ok(count) => wire.sent += count,
                Err(error) if error.kind() == ErrorKind::Interrupted => {}
                Err(error) if error.kind() == ErrorKind::WouldBlock => return Ok(false),
                Err(error) => return Err(error),
            }
        }
        wire.sent = 0;
        let mut output = mem::take(&mut wire.output);
        if output.capacity() <= SPARE {
            output.clear();
            wire.output = output;
        }
        Ok(true)
    }

    /// How much memory it holds.
    pub fn held(&self) -> usize {
        let wire = self.stream.get_ref();
        MEMORY + wire.input.capacity() + wire.output.capacity()
    }

    /// Its version and cipher.
    pub fn words(&self) -> String {
        let ssl = self.stream.ssl();
        let cipher = ssl.current_cipher().map_or("", |it| it.name());
        format!("{} {cipher}", ssl.version_str())
    }
}
