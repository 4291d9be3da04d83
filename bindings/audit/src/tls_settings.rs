//! What the settings say of TLS, and what of that goes together.

use crate::options::Options;
use crate::sys::own_user;
use std::fs::File;
use std::io::{self, Read};
use std::os::unix::fs::MetadataExt;
use std::str::FromStr;

/// What is asked of the clients.
#[derive(Clone, Copy, Debug, PartialEq)]
pub enum OfClient {
    Disabled,
    Preferred,
    Required,
}

/// What is asked of the server.
#[derive(Clone, Copy, Debug, Default, PartialEq)]
pub enum OfServer {
    Disabled,
    /// TLS where the client has it.
    #[default]
    AsClient,
    Preferred,
    Required,
    VerifyCa,
    VerifyIdentity,
}

/// How TLS is spoken with each side.
#[derive(Clone, Debug, Default, PartialEq)]
pub struct TlsOptions {
    pub client: Option<OfClient>,
    pub server: OfServer,
    /// Whether the server's side may have TLS where the client has none.
    pub alone: bool,
    pub cert: Option<String>,
    pub key: Option<String>,
    pub server_ca: Option<String>,
    pub server_name: Option<String>,
    /// Where the keys of each session go.
    pub key_log: Option<String>,
}

impl FromStr for OfClient {
    type Err = String;
    fn from_str(value: &str) -> Result<OfClient, String> {
        match value {
            "disabled" => Ok(OfClient::Disabled),
            "preferred" => Ok(OfClient::Preferred),
            "required" => Ok(OfClient::Required),
            _ => Err(format!(
                "{value} is neither disabled, preferred nor required"
            )),
        }
    }
}

impl FromStr for OfServer {
    type Err = String;
    fn from_str(value: &str) -> Result<OfServer, String> {
        match value {
            "disabled" => Ok(OfServer::Disabled),
            "as-client" => Ok(OfServer::AsClient),
            "preferred" => Ok(OfServer::Preferred),
            "required" => Ok(OfServer::Required),
            "verify-ca" => Ok(OfServer::VerifyCa),
            "verify-identity" => Ok(OfServer::VerifyIdentity),
            _ => Err(format!("{value} is no way to ask a server for TLS")),
        }
    }
}

impl OfServer {
    /// Whether the server's certificate is checked.
    pub fn verifies(self) -> bool {
        matches!(self, OfServer::VerifyCa | OfServer::VerifyIdentity)
    }

    /// Whether no connection to the server goes without TLS.
    pub fn insists(self) -> bool {
        self.verifies() || self == OfServer::Required
    }

    /// Whether the server's side may have TLS where the client has none.
    fn raises(self) -> bool {
        self.insists() || self == OfServer::Preferred
    }
}

impl TlsOptions {
    /// What is asked of clients. Without a word and a certificate what they do isn't changed.
    pub fn of_client(&self) -> Option<OfClient> {
        self.client
            .or(self.cert.is_some().then_some(OfClient::Preferred))
    }

    /// Whether clients may have TLS.
    pub fn serves(&self) -> bool {
        matches!(
            self.of_client(),
            Some(OfClient::Preferred | OfClient::Required)
        )
    }

    /// Whether the proxy speaks TLS at all.
    pub fn is_spoken(&self) -> bool {
        self.serves() || self.server.raises()
    }

    /// Whether a server's greeting is changed.
    pub fn changes_greeting(&self) -> bool {
        self.of_client().is_some() || self.server != OfServer::AsClient
    }

    /// Whether all of it goes together.
    ///
    /// # Errors
    /// What doesn't.
    pub fn check(&self, options: &Options) -> Result<(), String> {
        let has_pair = self.cert.is_some() && self.key.is_some();
        let is_required = self.of_client() == Some(OfClient::Required);
        let why = if self.cert.is_some() != self.key.is_some() {
            "--tls-cert and --tls-key go together"
        } else if self.serves() && !has_pair {
            "--tls-client: it needs --tls-cert and --tls-key"
        } else if self.serves() && options.plain {
            "--plain takes away the TLS that --tls-client offers"
        } else if self.server.raises() && !is_required && !self.alone {
            "--tls-server: the server would take a plain client for a secure one; it needs \
             --tls-client required, or --tls-server-alone"
        } else if self.alone && !self.server.raises() {
            "--tls-server-alone: it needs a --tls-server that doesn't go by the client"
        } else if self.key_log.is_some() && !self.is_spoken() {
            "--tls-key-log: no TLS is spoken"
        } else if self.server_ca.is_some() && !self.server.verifies() {
            "--tls-server-ca: no certificate of a server is checked"
        } else if self.server_name.is_some() && self.server != OfServer::VerifyIdentity {
            "--tls-server-name: no name of a server is checked"
        } else {
            return Ok(());
        };
        Err(why.to_string())
    }

    /// The name that the server's certificate has to have, where it is checked.
    #[cfg_attr(not(feature = "tls"), allow(dead_code))]
    pub fn name_to_check<'a>(&'a self, upstream: &'a str) -> Option<&'a str> {
        let host = upstream.rsplit_once(':').map_or(upstream, |it| it.0);
        let host = host.trim_start_matches('[').trim_end_matches(']');
        let name = self.server_name.as_deref().unwrap_or(host);
        (self.server == OfServer::VerifyIdentity).then_some(name)
    }
}

/// Reads a private key, which is the program's own user's or root's. Nobody else may be able to read
/// it, but a group a file of root.
///
/// # Errors
/// The file can't be read, or it is another's, or others can read it.
#[cfg_attr(not(feature = "tls"), allow(dead_code))]
pub fn read_key(path: &str) -> Result<Vec<u8>, String> {
    let said = |error: io::Error| format!("{path}: {error}");
    let mut file = File::open(path).map_err(said)?;
    let about = file.metadata().map_err(said)?;
    if about.uid() != 0 && about.uid() != own_user() {
        return Err(format!("{path}: it is another user's"));
    }
    let open_to = if about.uid() == 0 { 0o037 } else { 0o077 };
    if about.mode() & open_to != 0 {
        return Err(format!("{path}: others can read it, or write it"));
    }
    let mut pem = Vec::new();
    file.read_to_end(&mut pem).map_err(said)?;
    Ok(pem)
}

#[cfg(test)]
mod tests {
    use super::read_key;
    use crate::options::Options;
    use std::fs::{self, Permissions};
    use std::os::unix::fs::PermissionsExt;

    fn why_not(words: &str) -> Option<String> {
        let words = format!("a:1 b:2 {words}");
        Options::of(words.split(' ').map(str::to_string)).err()
    }

    #[test]
    fn what_goes_together_is_taken() {
        for words in [
            "--tls-client disabled",
            "--tls-cert c --tls-key k",
            "--tls-cert c --tls-key k --tls-client required --tls-server verify-ca",
            "--tls-cert c --tls-key k --tls-server disabled",
            "--tls-server required --tls-server-alone",
        ] {
            assert_eq!(None, why_not(words), "{words}");
        }
    }

    #[test]
    fn what_weakens_without_a_word_is_refused() {
        for (words, why) in [
            ("--tls-client required", "it needs --tls-cert"),
            ("--tls-cert c", "go together"),
            ("--tls-cert c --tls-key k --plain", "takes away the TLS"),
            (
                "--tls-cert c --tls-key k --tls-server required",
                "a plain client for a secure one",
            ),
            ("--tls-server preferred", "a plain client for a secure one"),
            ("--tls-server-alone", "that doesn't go by the client"),
            ("--tls-server-ca f", "no certificate of a server is checked"),
            (
                "--tls-server required --tls-server-alone --tls-server-name n",
                "no name of a server is checked",
            ),
            (
                "--tls-client what",
                "neither disabled, preferred nor required",
            ),
            ("--tls-server what", "no way to ask a server"),
            ("--tls-key-log f", "no TLS is spoken"),
        ] {
            let found = why_not(words);
            assert!(found.is_some_and(|it| it.contains(why)), "{words}");
        }
    }

    #[test]
    fn a_key_is_its_owners() {
        let file = std::env::temp_dir().join(format!("audit-key-{}", std::process::id()));
        let path = file.to_str().expect("a path");
        fs::write(&file, "a key").expect("a file");
        for (mode, is_read) in [(0o600, true), (0o400, true), (0o604, false), (0o622, false)] {
            fs::set_permissions(&file, Permissions::from_mode(mode)).expect("permissions");
            assert_eq!(is_read, read_key(path).is_ok(), "{mode:o}");
        }
        fs::remove_file(&file).expect("the file");
        assert!(read_key(path).is_err());
    }
}
