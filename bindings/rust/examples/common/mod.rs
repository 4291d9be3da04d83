//! What both examples do: packets read from a socket and written to one.

use mysql_session::{put_packet, Bytes, PacketReader};
use std::error::Error;
use std::io::{self, Read, Write};
use std::net::TcpStream;

/// Why an example stops.
pub type Failure = Box<dyn Error + Send + Sync>;

/// The most bytes of a payload: the largest `max_allowed_packet` of a server.
pub const LIMIT: usize = 1 << 30;

/// Bytes of a side of a connection that were read, and belong to packets to come.
#[derive(Default)]
pub struct Unread(pub Vec<u8>);

impl Unread {
    /// The payload of the next packet, which may have to be waited for.
    pub fn packet(
        &mut self,
        stream: &mut TcpStream,
        reader: &mut PacketReader,
    ) -> Result<Vec<u8>, Failure> {
        let mut piece = [0; 1 << 14];
        loop {
            let mut rest = &self.0[..];
            let payload = reader.advance(&mut rest)?.map(<[u8]>::to_vec);
            let used = self.0.len() - rest.len();
            self.0.drain(..used);
            if let Some(payload) = payload {
                return Ok(payload);
            }
            let count = stream.read(&mut piece)?;
            if count == 0 {
                return Err(io::Error::from(io::ErrorKind::UnexpectedEof).into());
            }
            self.0.extend_from_slice(&piece[..count]);
        }
    }
}

/// Writes a payload as a packet of this number.
pub fn write_packet(stream: &mut impl Write, number: u8, payload: &[u8]) -> Result<(), Failure> {
    let mut out = Bytes::new()?;
    put_packet(payload, &mut number.clone(), LIMIT, &mut out)?;
    Ok(stream.write_all(&out)?)
}
