//! The header of the PROXY protocol, by which a balancer says whose connection it hands on (HAProxy:
//! "The PROXY protocol, Versions 1 & 2").

use std::net::{IpAddr, Ipv4Addr, Ipv6Addr, SocketAddr};

/// Who connected, and where to.
pub type Ends = (SocketAddr, SocketAddr);

#[derive(Clone, Copy, Debug, PartialEq)]
pub enum Version {
    Text,
    Binary,
}

/// What the first bytes of a connection are.
#[derive(Debug, PartialEq)]
pub enum Header {
    /// The front of a header.
    Part,
    /// A header of so many bytes. It has no ends where the balancer speaks for itself, or doesn't
    /// know them.
    Whole(usize, Option<Ends>),
    /// No header.
    Unread,
}

/// The longest header that is read. Extensions of a binary one are skipped.
pub const MOST: usize = 4096;
/// The longest header of text, with its end.
const TEXT_MOST: usize = 107;
const TEXT_FRONT: &[u8] = b"PROXY ";
const BINARY_FRONT: &[u8] = b"\r\n\r\n\0\r\nQUIT\n";
/// The bytes of a binary header before its addresses.
const BINARY_LEAST: usize = 16;

const LOCAL: u8 = 0x20;
const PROXY: u8 = 0x21;
const UNKNOWN: u8 = 0;
const TCP4: u8 = 0x11;
const TCP6: u8 = 0x21;
const UNIX: u8 = 0x31;

/// Reads the header that a connection begins with.
pub fn read(bytes: &[u8]) -> Header {
    let begins = |front: &[u8]| {
        let length = front.len().min(bytes.len());
        bytes[..length] == front[..length]
    };
    if begins(TEXT_FRONT) {
        read_text(bytes)
    } else if begins(BINARY_FRONT) {
        read_binary(bytes)
    } else {
        Header::Unread
    }
}

fn read_text(bytes: &[u8]) -> Header {
    let front = &bytes[..bytes.len().min(TEXT_MOST)];
    let Some(end) = front.windows(2).position(|pair| pair == b"\r\n") else {
        return match front.len() {
            TEXT_MOST => Header::Unread,
            _ => Header::Part,
        };
    };
    match std::str::from_utf8(&front[TEXT_FRONT.len()..end]).map(ends_of_text) {
        Ok(Some(ends)) => Header::Whole(end + 2, ends),
        _ => Header::Unread,
    }
}

/// The ends of a header of text. None where it isn't one.
fn ends_of_text(text: &str) -> Option<Option<Ends>> {
    let words: Vec<&str> = text.split(' ').collect();
    match words[..] {
        ["UNKNOWN", ..] => Some(None),
        ["TCP4", from, to, of, at] => {
            let ip = |word: &str| word.parse::<Ipv4Addr>().ok().map(IpAddr::V4);
            Some(Some((
                SocketAddr::new(ip(from)?, port(of)?),
                SocketAddr::new(ip(to)?, port(at)?),
            )))
        }
        ["TCP6", from, to, of, at] => {
            let ip = |word: &str| word.parse::<Ipv6Addr>().ok().map(IpAddr::V6);
            Some(Some((
                SocketAddr::new(ip(from)?, port(of)?),
                SocketAddr::new(ip(to)?, port(at)?),
            )))
        }
        _ => None,
    }
}

fn port(word: &str) -> Option<u16> {
    let is_number = word.bytes().all(|byte| byte.is_ascii_digit());
    is_number.then(|| word.parse().ok())?
}

fn read_binary(bytes: &[u8]) -> Header {
    let Some((front, rest)) = bytes.split_first_chunk::<BINARY_LEAST>() else {
        return Header::Part;
    };
    let [command, family, high, low] = [front[12], front[13], front[14], front[15]];
    let length = usize::from(u16::from_be_bytes([high, low]));
    if length > MOST - BINARY_LEAST {
        return Header::Unread;
    }
    let Some(addresses) = rest.get(..length) else {
        return Header::Part;
    };
    let ends = match (command, family) {
        (LOCAL, _) | (PROXY, UNKNOWN | UNIX) => Some(None),
        (PROXY, TCP4) => ends_of_4(addresses).map(Some),
        (PROXY, TCP6) => ends_of_6(addresses).map(Some),
        _ => None,
    };
    ends.map_or(Header::Unread, |ends| {
        Header::Whole(BINARY_LEAST + length, ends)
    })
}

fn ends_of_4(bytes: &[u8]) -> Option<Ends> {
    let (from, rest) = bytes.split_first_chunk::<4>()?;
    let (to, rest) = rest.split_first_chunk::<4>()?;
    ends(IpAddr::from(*from), IpAddr::from(*to), rest)
}

fn ends_of_6(bytes: &[u8]) -> Option<Ends> {
    let (from, rest) = bytes.split_first_chunk::<16>()?;
    let (to, rest) = rest.split_first_chunk::<16>()?;
    ends(IpAddr::from(*from), IpAddr::from(*to), rest)
}

fn ends(from: IpAddr, to: IpAddr, ports: &[u8]) -> Option<Ends> {
    let &[high, low, other_high, other_low, ..] = ports else {
        return None;
    };
    let (of, at) = ([high, low], [other_high, other_low]);
    Some((
        SocketAddr::new(from, u16::from_be_bytes(of)),
        SocketAddr::new(to, u16::from_be_bytes(at)),
    ))
}

/// The header that says these ends to a server.
pub fn header((from, to): Ends, version: Version) -> Vec<u8> {
    let (ips, ports) = ([from.ip(), to.ip()], [from.port(), to.port()]);
    let [source, target] = ips.map(|ip| ip.to_canonical());
    let both = match (source, target) {
        (IpAddr::V4(source), IpAddr::V4(target)) => Ok([source, target]),
        _ => Err([source, target].map(|ip| match ip {
            IpAddr::V4(ip) => ip.to_ipv6_mapped(),
            IpAddr::V6(ip) => ip,
        })),
    };
    match version {
        Version::Text => {
            let [of, at] = ports;
            match both {
                Ok([source, target]) => format!("PROXY TCP4 {source} {target} {of} {at}\r\n"),
                Err([source, target]) => format!("PROXY TCP6 {source} {target} {of} {at}\r\n"),
            }
            .into_bytes()
        }
        Version::Binary => {
            let (family, addresses) = match both {
                Ok(ips) => (TCP4, ips.map(|ip| ip.octets()).concat()),
                Err(ips) => (TCP6, ips.map(|ip| ip.octets()).concat()),
            };
            let ports = ports.map(u16::to_be_bytes).concat();
            let length = (addresses.len() + ports.len()) as u16;
            let front = [&[PROXY, family][..], &length.to_be_bytes()].concat();
            [BINARY_FRONT, &front, &addresses, &ports].concat()
        }
    }
}

#[cfg(test)]
mod tests {
    use super::{header, read, Ends, Header, Version, BINARY_FRONT, MOST};

    fn ends(from: &str, to: &str) -> Ends {
        (
            from.parse().expect("an address"),
            to.parse().expect("an address"),
        )
    }

    /// A binary header with these bytes behind its front.
    fn binary(rest: &[u8]) -> Vec<u8> {
        [BINARY_FRONT, rest].concat()
    }

    #[test]
    fn what_is_written_is_read() {
        for (from, to) in [
            ("192.0.2.1:56324", "198.51.100.7:3306"),
            ("[2001:db8::1]:1", "[2001:db8::2]:65535"),
        ] {
            for version in [Version::Text, Version::Binary] {
                let both = ends(from, to);
                let said = header(both, version);
                let whole = Header::Whole(said.len(), Some(both));
                assert_eq!(whole, read(&[&said[..], b"more"].concat()));
                for end in 0..said.len() {
                    assert_eq!(Header::Part, read(&said[..end]), "{end} bytes");
                }
            }
        }
        let said = header(ends("192.0.2.1:7", "[2001:db8::2]:8"), Version::Text);
        assert_eq!(
            b"PROXY TCP6 ::ffff:192.0.2.1 2001:db8::2 7 8\r\n",
            &said[..]
        );
    }

    #[test]
    fn a_balancer_may_speak_for_itself() {
        let text = b"PROXY UNKNOWN ffff::1 ffff::2 1 2\r\n";
        assert_eq!(Header::Whole(text.len(), None), read(text));
        assert_eq!(Header::Whole(16, None), read(&binary(&[0x20, 0, 0, 0])));
        // Behind addresses of a kind that isn't named, and extensions.
        assert_eq!(
            Header::Whole(19, None),
            read(&binary(&[0x21, 0, 0, 3, 1, 2, 3]))
        );
        let said = [&[0x21, 0x11, 0, 15][..], &[1; 12], &[4, 0, 0]].concat();
        let both = ends("1.1.1.1:257", "1.1.1.1:257");
        assert_eq!(Header::Whole(31, Some(both)), read(&binary(&said)));
    }

    #[test]
    fn what_is_no_header_is_refused() {
        let long = [&b"PROXY UNKNOWN "[..], &[b'x'; 200]].concat();
        let larger = (MOST as u16).to_be_bytes();
        for bytes in [
            &b"GET / HTTP/1.0\r\n"[..],
            b"PROXY TCP4 192.0.2.1 198.51.100.7 1\r\n",
            b"PROXY TCP4 192.0.2.1 198.51.100.7 1 65536\r\n",
            b"PROXY TCP4 192.0.2.1 198.51.100.7 +1 2\r\n",
            b"PROXY TCP6 192.0.2.1 198.51.100.7 1 2\r\n",
            b"PROXY TCP4  192.0.2.1 198.51.100.7 1 2\r\n",
            b"PROXY \xff\r\n",
            &long,
            &binary(&[0x11, 0x11, 0, 0]),
            &binary(&[0x21, 0x12, 0, 0]),
            &binary(&[0x21, 0x11, 0, 11, 1, 1, 1, 1, 1, 1, 1, 1, 1, 1, 1]),
            &binary(&[0x20, 0, larger[0], larger[1]]),
        ] {
            assert_eq!(Header::Unread, read(bytes), "{}", bytes.escape_ascii());
        }
    }
}
