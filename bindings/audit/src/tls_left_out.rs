//! What `tls.rs` has, where the program is built without TLS: nothing of it can be had.

use crate::tls_settings::TlsOptions;
use std::io;
use std::net::TcpStream;

pub enum Contexts {}

pub enum Tls {}

impl Contexts {
    /// # Errors
    /// The settings ask for TLS.
    pub fn new(options: &TlsOptions, _upstream: &str) -> Result<Option<Contexts>, String> {
        match options.is_spoken() {
            true => Err("this mysql-audit was built without TLS".to_string()),
            false => Ok(None),
        }
    }

    pub fn accept(&self) -> Result<Tls, String> {
        match *self {}
    }

    pub fn connect(&self, _request: &[u8]) -> Result<Tls, String> {
        match *self {}
    }

    pub fn public_key(&self) -> Option<Vec<u8>> {
        match *self {}
    }

    pub fn decrypt(&self, _cipher: &[u8]) -> Option<Vec<u8>> {
        match *self {}
    }
}

impl Tls {
    pub fn take(&mut self, _bytes: &[u8]) {
        match *self {}
    }

    pub fn end(&mut self) {
        match *self {}
    }

    pub fn shake(&mut self) -> Result<bool, String> {
        match *self {}
    }

    pub fn is_done(&self) -> bool {
        match *self {}
    }

    pub fn read(&mut self, _to: &mut [u8]) -> Option<usize> {
        match *self {}
    }

    pub fn write(&mut self, _bytes: &[u8]) -> io::Result<usize> {
        match *self {}
    }

    pub fn close(&mut self) {
        match *self {}
    }

    pub fn is_flushed(&self) -> bool {
        match *self {}
    }

    pub fn flush(&mut self, _to: &TcpStream) -> io::Result<bool> {
        match *self {}
    }

    pub fn held(&self) -> usize {
        match *self {}
    }

    pub fn words(&self) -> String {
        match *self {}
    }
}
