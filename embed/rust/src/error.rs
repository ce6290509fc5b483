use std::{fmt, io};

/// Why a call was refused or a handshake failed.
///
/// Each has the [`number`](Error::number) that the C header and the library's definitions give it.
#[derive(Clone, Copy, Debug, PartialEq, Eq, Hash)]
#[non_exhaustive]
pub enum Error {
    /// 1: the call was lent too little output. Calls of this crate lend enough.
    ShortOutput,
    /// 2: the destination's host is empty.
    MissingHost,
    /// 3: the host has a byte that is not printable ASCII.
    HostByte,
    /// 4: the destination has no port. Destinations of this crate have one.
    MissingPort,
    /// 5: the user or the password has more than 255 bytes.
    CredentialTooLong,
    /// 6: the name has more than 255 bytes over SOCKS5, or 1,014 over SOCKS4a.
    HostTooLong,
    /// 7: the host is an IPv6 address, which SOCKS4 does not have.
    IpV6,
    /// 8: the lookup has no record that serves; over SOCKS4 only IPv4 serves.
    DnsFailure,
    /// 9: the stream ended inside the handshake.
    UnexpectedEof,
    /// 10: the proxy's reply is not one of SOCKS.
    Parsing,
    /// 12: the proxy accepts no method that was offered; or, at the proxy's end, the client did not offer the one that is asked for.
    Unsupported,
    /// 13: the proxy chose a method that was not offered.
    MethodMismatch,
    /// 14: the proxy refused the credentials.
    Failed,
    /// 15: the proxy could not connect or would not: the reply's status, 1 to 8 over SOCKS5, 91 to 93 over SOCKS4.
    Command(u8),
    /// 16: the call is out of turn, for the handshake is over; or, at the proxy's end, for the caller's answer is or is not awaited.
    Settled,
    /// 17: there is no bound address, for the session is not open.
    NotOpen,
    /// 18: the buffer is too short for the text. Calls of this crate lend enough.
    ShortText,
    /// 19: the client's request is not one of SOCKS.
    Malformed,
    /// 20: the client's credentials are wrong, or missing.
    WrongCredentials,
    /// 21: a route of no proxy or of more than eight. Not met by calls of this crate.
    RouteLength,
    /// 22: the session has not been started, or has been already.
    OutOfOrder,
    /// 23: an address `0.0.0.x`, which over SOCKS4 would announce a name.
    AnnouncesName,
    /// 24: the proxy line goes wrong. Not met by calls of this crate.
    BadLine,
    /// 25: an entry of a capture runs past its end. Not met by calls of this crate.
    CaptureCut,
    /// 26: the capture is not a lawful handshake. Not met by calls of this crate.
    CaptureNotAccepted,
    /// 27: the buffer is too short for the stream. Not met by calls of this crate.
    ShortStream,
}

use Error::*;

/// All errors, 15 with a status.
const fn all(status: u8) -> [Error; 26] {
    [
        ShortOutput,
        MissingHost,
        HostByte,
        MissingPort,
        CredentialTooLong,
        HostTooLong,
        IpV6,
        DnsFailure,
        UnexpectedEof,
        Parsing,
        Unsupported,
        MethodMismatch,
        Failed,
        Command(status),
        Settled,
        NotOpen,
        ShortText,
        Malformed,
        WrongCredentials,
        RouteLength,
        OutOfOrder,
        AnnouncesName,
        BadLine,
        CaptureCut,
        CaptureNotAccepted,
        ShortStream,
    ]
}

impl Error {
    /// The error's number.
    pub fn number(self) -> u8 {
        match self {
            ShortOutput => 1,
            MissingHost => 2,
            HostByte => 3,
            MissingPort => 4,
            CredentialTooLong => 5,
            HostTooLong => 6,
            IpV6 => 7,
            DnsFailure => 8,
            UnexpectedEof => 9,
            Parsing => 10,
            Unsupported => 12,
            MethodMismatch => 13,
            Failed => 14,
            Command(_) => 15,
            Settled => 16,
            NotOpen => 17,
            ShortText => 18,
            Malformed => 19,
            WrongCredentials => 20,
            RouteLength => 21,
            OutOfOrder => 22,
            AnnouncesName => 23,
            BadLine => 24,
            CaptureCut => 25,
            CaptureNotAccepted => 26,
            ShortStream => 27,
        }
    }

    /// The error of a number; the status is that of 15, and is not looked at with another.
    pub fn from_number(number: u8, status: u8) -> Option<Error> {
        all(status).into_iter().find(|error| error.number() == number)
    }

    /// The error that a call told: the library, too, takes a number that no error has for 16.
    pub(crate) fn told(number: u8, status: u8) -> Error {
        Error::from_number(number, status).unwrap_or(Settled)
    }

    fn text(self) -> &'static str {
        match self {
            ShortOutput => "the output is too short",
            MissingHost => "the host is empty",
            HostByte => "the host has a byte that is not printable ASCII",
            MissingPort => "the port is missing",
            CredentialTooLong => "the user or the password is longer than 255 bytes",
            HostTooLong => "the host name is too long",
            IpV6 => "SOCKS4 has no IPv6 addresses",
            DnsFailure => "the lookup gave no address that serves",
            UnexpectedEof => "the stream ended inside the handshake",
            Parsing => "the proxy's reply is malformed",
            Unsupported => "no authentication method is acceptable",
            MethodMismatch => "the proxy chose an authentication method that was not offered",
            Failed => "the proxy refused the credentials",
            Command(1) => "the proxy failed",
            Command(2) => "the proxy's rules do not allow the connection",
            Command(3) => "the proxy finds the network unreachable",
            Command(4) => "the proxy finds the host unreachable",
            Command(5) => "the host refused the proxy's connection",
            Command(6) => "the proxy's connection timed out",
            Command(7) => "the proxy does not know the command",
            Command(8) => "the proxy does not know the address type",
            Command(91) => "the proxy rejected the request, or failed",
            Command(92) => "the proxy cannot reach the client's identd",
            Command(93) => "the client's identd names another user",
            Command(_) => "the proxy answered with an unknown status",
            Settled => "the call is out of turn",
            NotOpen => "the session is not open",
            ShortText => "the text buffer is too short",
            Malformed => "the client's request is malformed",
            WrongCredentials => "the client's credentials are wrong",
            RouteLength => "a route has one to eight proxies",
            OutOfOrder => "the session is not started, or already was",
            AnnouncesName => "over SOCKS4 an address 0.0.0.x announces a name",
            BadLine => "the proxy line goes wrong",
            CaptureCut => "an entry runs past the capture's end",
            CaptureNotAccepted => "the capture is not a lawful handshake",
            ShortStream => "the stream buffer is too short",
        }
    }

    fn kind(self) -> io::ErrorKind {
        match self {
            DnsFailure => io::ErrorKind::NotFound,
            UnexpectedEof => io::ErrorKind::UnexpectedEof,
            Parsing | MethodMismatch | Malformed => io::ErrorKind::InvalidData,
            Unsupported | Failed | WrongCredentials | Command(2 | 92 | 93) => io::ErrorKind::PermissionDenied,
            Command(3) => io::ErrorKind::NetworkUnreachable,
            Command(4) => io::ErrorKind::HostUnreachable,
            Command(5 | 91) => io::ErrorKind::ConnectionRefused,
            Command(6) => io::ErrorKind::TimedOut,
            Command(7 | 8) => io::ErrorKind::Unsupported,
            Command(_) => io::ErrorKind::Other,
            _ => io::ErrorKind::InvalidInput,
        }
    }
}

impl fmt::Display for Error {
    fn fmt(&self, f: &mut fmt::Formatter<'_>) -> fmt::Result {
        f.write_str(self.text())?;
        match self {
            Command(status) => write!(f, " (status {status})"),
            _ => Ok(()),
        }
    }
}

impl std::error::Error for Error {}

/// With a fitting kind, and the error inside: `io_error.get_ref()` can be downcast to it.
impl From<Error> for io::Error {
    fn from(error: Error) -> io::Error {
        io::Error::new(error.kind(), error)
    }
}
