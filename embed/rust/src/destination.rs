use crate::raw::{self, Record};
use std::fmt;
use std::net::{IpAddr, Ipv4Addr, Ipv6Addr, SocketAddr};

/// A user and a password, of at most 255 bytes each (RFC 1929).
#[derive(Clone, Copy, PartialEq, Eq)]
pub struct Credentials<'a> {
    /// The user's name.
    pub user: &'a [u8],
    /// The user's password.
    pub password: &'a [u8],
}

impl<'a> Credentials<'a> {
    /// Credentials of two texts, or any bytes.
    pub fn new(user: &'a (impl AsRef<[u8]> + ?Sized), password: &'a (impl AsRef<[u8]> + ?Sized)) -> Self {
        Credentials { user: user.as_ref(), password: password.as_ref() }
    }
}

/// Tells neither user nor password.
impl fmt::Debug for Credentials<'_> {
    fn fmt(&self, f: &mut fmt::Formatter<'_>) -> fmt::Result {
        f.debug_struct("Credentials").finish_non_exhaustive()
    }
}

/// The version that the proxy is spoken to in, and that version's options.
#[derive(Clone, Copy, Debug, PartialEq, Eq)]
pub enum Config<'a> {
    /// SOCKS4 for an address, SOCKS4a for a name.
    V4,
    /// SOCKS5.
    V5 {
        /// Without, the proxy must let everybody in.
        credentials: Option<Credentials<'a>>,
        /// All requests go at the start, before the proxy has said that it accepts the method. It saves round trips; the credentials
        /// go to a proxy that may not have asked for them.
        optimistic: bool,
    },
}

/// What a proxy is asked to connect to, and how it is asked.
#[derive(Clone, Copy, Debug, PartialEq, Eq)]
pub struct Destination<'a> {
    /// The version and its options.
    pub config: Config<'a>,
    /// An IPv4 or IPv6 address as text, the latter in square brackets or without, or a name; bytes `21` to `7E` alone.
    pub host: &'a [u8],
    /// The port.
    pub port: u16,
    /// Who looks up a name: the proxy if there is nothing here. With records, which may be none, the first that serves the version
    /// goes to the proxy in the name's place.
    pub lookup: Option<&'a [Record]>,
}

impl<'a> Destination<'a> {
    /// Over SOCKS5, without credentials, not optimistic; the proxy looks up a name.
    pub fn v5(host: &'a (impl AsRef<[u8]> + ?Sized), port: u16) -> Self {
        Destination { config: Config::V5 { credentials: None, optimistic: false }, host: host.as_ref(), port, lookup: None }
    }

    /// Over SOCKS5, with credentials, not optimistic; the proxy looks up a name.
    pub fn v5_with(credentials: Credentials<'a>, host: &'a (impl AsRef<[u8]> + ?Sized), port: u16) -> Self {
        Destination { config: Config::V5 { credentials: Some(credentials), optimistic: false }, ..Destination::v5(host, port) }
    }

    /// Over SOCKS4, or SOCKS4a for a name, which the proxy looks up.
    pub fn v4(host: &'a (impl AsRef<[u8]> + ?Sized), port: u16) -> Self {
        Destination { config: Config::V4, ..Destination::v5(host, port) }
    }

    /// The same, with a name that was looked up here.
    pub fn with_lookup(self, records: &'a [Record]) -> Self {
        Destination { lookup: Some(records), ..self }
    }
}

impl From<IpAddr> for Record {
    fn from(ip: IpAddr) -> Record {
        match ip {
            IpAddr::V4(ip) => ip.into(),
            IpAddr::V6(ip) => ip.into(),
        }
    }
}

/// IPv4 takes the first four of the address's bytes.
impl From<Ipv4Addr> for Record {
    fn from(ip: Ipv4Addr) -> Record {
        let mut address = [0; 16];
        address[..4].copy_from_slice(&ip.octets());
        Record { kind: raw::KIND_IPV4, address }
    }
}

impl From<Ipv6Addr> for Record {
    fn from(ip: Ipv6Addr) -> Record {
        Record { kind: raw::KIND_IPV6, address: ip.octets() }
    }
}

/// An address with its port, as it came over the wire.
#[derive(Clone, Debug, PartialEq, Eq, Hash)]
pub enum Address {
    /// An IPv4 or IPv6 address.
    Ip(SocketAddr),
    /// A name, which is any text that the peer chose.
    Name {
        /// The name's bytes.
        name: Vec<u8>,
        /// The port.
        port: u16,
    },
}

/// `192.0.2.7:80`, `[2001:db8::1]:80` or `name:80`, with what is not printable ASCII in a name escaped.
impl fmt::Display for Address {
    fn fmt(&self, f: &mut fmt::Formatter<'_>) -> fmt::Result {
        match self {
            Address::Ip(address) => address.fmt(f),
            Address::Name { name, port } => write!(f, "{}:{port}", name.escape_ascii()),
        }
    }
}

impl Address {
    /// An address of a kind, which uses so many of the bytes as the kind has, or `len` of a name.
    pub(crate) fn told(kind: u8, bytes: &[u8], len: usize, port: u16) -> Address {
        let ip = match kind {
            raw::KIND_NAME => return Address::Name { name: bytes[..len].to_vec(), port },
            raw::KIND_IPV6 => IpAddr::from(*bytes.first_chunk::<16>().expect("there are 255 bytes and more")),
            _ => IpAddr::from(*bytes.first_chunk::<4>().expect("there are 255 bytes and more")),
        };
        Address::Ip(SocketAddr::new(ip, port))
    }
}
