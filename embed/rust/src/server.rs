use crate::raw::{self, OUT, wipe};
use crate::{Address, Credentials, Error, Progress};
use std::fmt;
use std::net::SocketAddr;

/// How a proxy's end stands.
#[derive(Clone, Copy, Debug, PartialEq, Eq)]
pub enum ServerOutcome {
    /// It waits for more of the client's bytes.
    Waiting,
    /// It has handed out a destination, and awaits its caller's answer.
    Asked,
    /// The client was told that its destination is connected.
    Open,
    /// The handshake is over, and has not come about.
    Failed(Error),
}

/// The proxy's end of a handshake, apart from any stream: for tests, and for small proxies.
///
/// It is set up, fed with a client's pieces, and hands out a destination; the caller connects there, or not, and answers. The client's
/// first byte picks the version. What is [said](Progress::sent) is to be sent even if the end has failed by it: it tells the client why.
/// A refused call changes nothing.
///
/// It stores user and password, and what the client said of its own. They are overwritten when it is dropped; copies that the calls leave
/// on the stack are not.
///
/// ```
/// use gitaymba::{Address, OUT, Server, ServerOutcome};
///
/// let mut out = [0; OUT];
/// let mut server = Server::set_up(None)?;
/// let progress = server.deliver(&[5, 1, 0], &mut out)?;
/// assert_eq!(out[..progress.sent], [5, 0]);
/// server.deliver(&[5, 1, 0, 3, 3, b't', b'o', b'r', 0, 80], &mut out)?;
/// assert_eq!(server.outcome(), ServerOutcome::Asked);
/// assert_eq!(server.destination(), Some(Address::Name { name: b"tor".to_vec(), port: 80 }));
/// let sent = server.grant("192.0.2.7:8080".parse().unwrap(), &mut out)?;
/// assert_eq!(out[..sent], [5, 0, 0, 1, 192, 0, 2, 7, 0x1f, 0x90]);
/// assert_eq!(server.outcome(), ServerOutcome::Open);
/// # Ok::<(), gitaymba::Error>(())
/// ```
#[derive(Clone)]
pub struct Server {
    raw: raw::Server,
}

impl Server {
    /// With credentials, which every client must then give, or without. Refused with [`Error::CredentialTooLong`].
    pub fn set_up(credentials: Option<Credentials<'_>>) -> Result<Server, Error> {
        let Credentials { user, password } = credentials.unwrap_or(Credentials { user: &[], password: &[] });
        let served = raw::proxy_set_up(credentials.is_some().into(), user, password);
        match served.answer {
            0 => Ok(Server { raw: served.server }),
            number => Err(Error::told(number, 0)),
        }
    }

    /// Takes a piece of what the client sent, of any length, and puts what is said to it at the output's start.
    ///
    /// Refused with [`Error::Settled`] unless the end waits.
    pub fn deliver(&mut self, piece: &[u8], out: &mut [u8; OUT]) -> Result<Progress, Error> {
        let served = raw::proxy_deliver(self.raw, piece, out);
        self.keep(served)
    }

    /// Answers that the destination is connected, from this bound address. A SOCKS4 client is told an IPv6 one as zeros.
    ///
    /// Refused with [`Error::Settled`] unless the end is asked.
    pub fn grant(&mut self, bound: SocketAddr, out: &mut [u8; OUT]) -> Result<usize, Error> {
        // what grants is another number in each version; out of turn any will do, for the answer is refused
        let success = raw::gitaymba_proxy_outcome(self.raw).status;
        self.answer(success, bound, out)
    }

    /// Answers with a status of the client's version, 0 to 8 over SOCKS5, 90 to 93 over SOCKS4, of which 0 and 90 grant; another goes
    /// as 1 or 91.
    ///
    /// Refused with [`Error::Settled`] unless the end is asked.
    pub fn answer(&mut self, status: u8, bound: SocketAddr, out: &mut [u8; OUT]) -> Result<usize, Error> {
        let served = raw::gitaymba_proxy_answer(self.raw, status, bound.ip().into(), bound.port(), out);
        Ok(self.keep(served)?.sent)
    }

    /// The client's stream has ended: the end fails with [`Error::UnexpectedEof`].
    ///
    /// Refused with [`Error::Settled`] unless the end waits.
    pub fn end(&mut self) -> Result<(), Error> {
        let served = raw::gitaymba_proxy_end(self.raw);
        self.keep(served).map(|_| ())
    }

    /// How the end stands.
    pub fn outcome(&self) -> ServerOutcome {
        let raw::Outcome { state, number, status } = raw::gitaymba_proxy_outcome(self.raw);
        match state {
            raw::STATE_WAITING => ServerOutcome::Waiting,
            raw::STATE_OPEN => ServerOutcome::Open,
            raw::STATE_ASKED => ServerOutcome::Asked,
            _ => ServerOutcome::Failed(Error::told(number, status)),
        }
    }

    /// The destination that the client asks for, once the end is asked or open.
    pub fn destination(&self) -> Option<Address> {
        let raw::Target { len, port, kind, bytes } = raw::gitaymba_proxy_destination(self.raw);
        matches!(self.outcome(), ServerOutcome::Asked | ServerOutcome::Open).then(|| Address::told(kind, &bytes, len, port))
    }

    fn keep(&mut self, served: raw::Served) -> Result<Progress, Error> {
        if served.answer != 0 {
            return Err(Error::told(served.answer, 0));
        }
        self.raw = served.server;
        Ok(Progress { used: served.used, sent: served.sent })
    }
}

impl Drop for Server {
    fn drop(&mut self) {
        wipe(&mut self.raw.user);
        wipe(&mut self.raw.password);
        // the client's, while they are read
        wipe(&mut self.raw.hold);
    }
}

/// Tells nothing of any credentials.
impl fmt::Debug for Server {
    fn fmt(&self, f: &mut fmt::Formatter<'_>) -> fmt::Result {
        f.debug_struct("Server").field("outcome", &self.outcome()).finish_non_exhaustive()
    }
}

#[cfg(test)]
mod tests {
    use super::*;
    use std::mem::MaybeUninit;
    use std::net::Ipv4Addr;
    use std::ptr::addr_of;

    const ZEROS: raw::Server = raw::Server {
        held: 0,
        stage: raw::Stage { dstport: 0, number: 0, error: 0, status: 0, command: 0, atyp: 0, first: 0, second: 0, third: 0, fourth: 0 },
        port: 0,
        kind: 0,
        authenticates: 0,
        userlen: 0,
        passlen: 0,
        hold: [0; 1014],
        user: [0; 255],
        password: [0; 255],
    };

    #[test]
    fn all_zeros_refuse_every_call() {
        let (mut server, mut out) = (Server { raw: ZEROS }, [7; OUT]);
        assert_eq!(server.deliver(&[5, 1, 0], &mut out), Err(Error::Settled));
        assert_eq!(server.grant((Ipv4Addr::LOCALHOST, 1).into(), &mut out), Err(Error::Settled));
        assert_eq!(server.answer(0, (Ipv4Addr::LOCALHOST, 1).into(), &mut out), Err(Error::Settled));
        assert_eq!(server.end(), Err(Error::Settled));
        assert_eq!((server.outcome(), server.destination()), (ServerOutcome::Failed(Error::Settled), None));
        assert_eq!(out, [7; OUT]);
    }

    #[test]
    #[allow(unsafe_code)]
    fn drop_wipes_credentials() {
        let mut server = Server::set_up(Some(Credentials::new("alice", "wonder"))).unwrap();
        server.deliver(b"\x05\x01\x02\x01\x05alice\x06wond", &mut [0; OUT]).unwrap();
        assert!(server.raw.user.starts_with(b"alice") && server.raw.password.starts_with(b"wonder"));
        assert!(server.raw.hold.windows(4).any(|part| part == b"wond"));
        let mut place = MaybeUninit::new(server);
        // SAFETY: the end is dropped once; what is read behind it are arrays of bytes, whose memory is still the place's.
        let (user, password, hold) = unsafe {
            place.assume_init_drop();
            let raw = addr_of!((*place.as_ptr()).raw);
            (addr_of!((*raw).user).read(), addr_of!((*raw).password).read(), addr_of!((*raw).hold).read())
        };
        assert_eq!((user, password, hold), ([0; 255], [0; 255], [0; 1014]));
    }
}
