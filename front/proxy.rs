//! The PROXY protocol, by which a proxy tells whose connection it passes on: version 1 is a line, version 2 a head of numbers (proxy-protocol.txt of HAProxy,
//! sections 2.1 and 2.2).
use std::net::{IpAddr, Ipv4Addr, Ipv6Addr};

/// The most bytes of a header that are taken; of version 1 the most that it has.
pub const MOST: usize = 1024;
const MOST_LINE: usize = 107;

/// With what each version begins.
const LINE: &[u8] = b"PROXY ";
const SIGNATURE: &[u8] = b"\r\n\r\n\0\r\nQUIT\n";

/// The bytes of version 2 before the addresses.
const FIXED: usize = 16;

/// The families of version 2, each with how it is carried: unknown, and over a stream IPv4, IPv6, and a socket of Unix; and the bytes of their addresses.
const UNKNOWN: u8 = 0x00;
const IPV4: u8 = 0x11;
const IPV6: u8 = 0x21;
const UNIX: u8 = 0x31;
const IPV4_LENGTH: usize = 12;
const IPV6_LENGTH: usize = 36;
const UNIX_LENGTH: usize = 216;

/// What the first bytes of a connection are.
#[derive(Debug, PartialEq)]
pub enum Header {
    /// A header of so many bytes, which tells this address, or that it is the connection's own.
    Whole(usize, Option<IpAddr>),
    /// A part of one.
    Part,
    /// None, for this reason.
    Broken(&'static str),
}

const NONE: Header = Header::Broken("it has no PROXY header");
const WRONG: Header = Header::Broken("its PROXY header is broken");
const LONG: Header = Header::Broken("its PROXY header is too long");

/// Which addresses are those of proxies.
#[derive(Clone, Default)]
pub struct Proxies {
    has_loopback: bool,
    named: Vec<IpAddr>,
}

impl Proxies {
    /// Adds an address, or all of this machine; false where the text is neither.
    pub fn add(&mut self, text: &str) -> bool {
        match text.parse::<IpAddr>() {
            Ok(address) => self.named.push(address.to_canonical()),
            Err(_) if text == "loopback" => self.has_loopback = true,
            Err(_) => return false,
        }
        true
    }

    pub fn has(&self, address: IpAddr) -> bool {
        let address = address.to_canonical();
        self.has_loopback && address.is_loopback() || self.named.contains(&address)
    }
}

/// Reads the header with which bytes begin.
pub fn read(bytes: &[u8]) -> Header {
    if begins(bytes, SIGNATURE) {
        return read_head(bytes);
    }
    if begins(bytes, LINE) { read_line(bytes) } else { NONE }
}

/// Whether bytes begin with others, as far as they go.
fn begins(bytes: &[u8], with: &[u8]) -> bool {
    let count = bytes.len().min(with.len());
    bytes[..count] == with[..count]
}

/// Reads a line, which ends in CR and LF.
fn read_line(bytes: &[u8]) -> Header {
    let bytes = &bytes[..bytes.len().min(MOST_LINE)];
    let Some(end) = bytes.iter().position(|byte| *byte == b'\n') else {
        return if bytes.len() < MOST_LINE { Header::Part } else { LONG };
    };
    let text = bytes[..end].strip_suffix(b"\r").and_then(|line| std::str::from_utf8(line).ok());
    let words: Vec<&str> = text.unwrap_or_default().split(' ').collect();
    let address = match words[..] {
        ["PROXY", "UNKNOWN", ..] => None,
        ["PROXY", "TCP4", from, to, from_port, to_port] if is_port(from_port) && is_port(to_port) && to.parse::<Ipv4Addr>().is_ok() => match from.parse() {
            Ok(address) => Some(IpAddr::V4(address)),
            Err(_) => return WRONG,
        },
        ["PROXY", "TCP6", from, to, from_port, to_port] if is_port(from_port) && is_port(to_port) && to.parse::<Ipv6Addr>().is_ok() => match from.parse() {
            Ok(address) => Some(IpAddr::V6(address)),
            Err(_) => return WRONG,
        },
        _ => return WRONG,
    };
    Header::Whole(end + 1, address)
}

/// Whether a text is the number of a port, as it is written.
fn is_port(text: &str) -> bool {
    text.parse::<u16>().is_ok_and(|port| port.to_string() == text)
}

/// Reads a head of numbers.
fn read_head(bytes: &[u8]) -> Header {
    let Some((fixed, rest)) = bytes.split_at_checked(FIXED) else {
        return Header::Part;
    };
    let (version, family) = (fixed[12], fixed[13]);
    let length = usize::from(u16::from_be_bytes([fixed[14], fixed[15]]));
    if FIXED + length > MOST {
        return LONG;
    }
    if version != 0x20 && version != 0x21 {
        return WRONG;
    }
    let Some(told) = rest.get(..length) else {
        return Header::Part;
    };
    let address = match family {
        _ if version == 0x20 => None, // the proxy's own
        UNKNOWN => None,
        UNIX if length >= UNIX_LENGTH => None,
        IPV4 if length >= IPV4_LENGTH => told.first_chunk::<4>().map(|bytes| IpAddr::from(*bytes)),
        IPV6 if length >= IPV6_LENGTH => told.first_chunk::<16>().map(|bytes| IpAddr::from(*bytes)),
        _ => return WRONG,
    };
    Header::Whole(FIXED + length, address)
}
