use crate::raw::{self, OUT, TEXT, wipe};
use crate::{Address, Config, Credentials, Destination, Error};
use std::fmt;

/// What a delivery came to.
#[derive(Clone, Copy, Debug, PartialEq, Eq)]
pub struct Progress {
    /// So many of the piece's bytes belong to the handshake; those behind them are the stream's.
    pub used: usize,
    /// So many bytes at the output's start are to be sent.
    pub sent: usize,
}

/// How a session stands.
#[derive(Clone, Copy, Debug, PartialEq, Eq)]
pub enum Outcome {
    /// It is prepared and not started, or waits for more of the proxy's bytes.
    Waiting,
    /// The proxy has connected.
    Open,
    /// The handshake is over, and has not come about.
    Failed(Error),
}

/// The client's end of a handshake, apart from any stream.
///
/// It is prepared, started, fed with whatever pieces arrive, and told of the stream's end. It does no input or output: the caller sends
/// what stands in the output and delivers what it read. A refused call changes nothing, neither the session nor the output.
///
/// It stores the requests, with user and password. They are overwritten when it is dropped; the output, and copies that the calls leave
/// on the stack, are not. [`wipe`](crate::wipe) does for the output.
///
/// ```
/// use gitaymba::{Destination, OUT, Outcome, Session};
///
/// let mut out = [0; OUT];
/// let mut session = Session::prepare(&Destination::v5("192.0.2.7", 443))?;
/// let sent = session.start(&mut out)?;
/// assert_eq!(out[..sent], [5, 1, 0]);
/// let progress = session.deliver(&[5, 0], &mut out)?;
/// assert_eq!(out[..progress.sent], [5, 1, 0, 1, 192, 0, 2, 7, 1, 187]);
/// let piece = [5, 0, 0, 1, 192, 0, 2, 7, 0x1f, 0x90, b'S', b'D', b'F'];
/// let progress = session.deliver(&piece, &mut out)?;
/// assert_eq!(session.outcome(), Outcome::Open);
/// assert_eq!(session.bound_text().as_deref(), Some("192.0.2.7:8080"));
/// assert_eq!(&piece[progress.used..], b"SDF");
/// # Ok::<(), gitaymba::Error>(())
/// ```
#[derive(Clone)]
pub struct Session {
    raw: raw::Session,
}

impl Session {
    /// Checks a destination. Nothing is sent yet, so there need be no connection.
    pub fn prepare(destination: &Destination<'_>) -> Result<Session, Error> {
        let Destination { config, host, port, lookup } = *destination;
        let (local_dns, records) = (lookup.is_some().into(), lookup.unwrap_or(&[]));
        let step = match config {
            Config::V4 => raw::prepare4(local_dns, host, port, records),
            Config::V5 { credentials, optimistic } => {
                let config = raw::Config { proxy_auth: credentials.is_some().into(), local_dns, optimistic: optimistic.into() };
                let Credentials { user, password } = credentials.unwrap_or(Credentials { user: &[], password: &[] });
                raw::prepare5(config, host, port, user, password, records)
            }
        };
        match step.answer {
            0 => Ok(Session { raw: step.session }),
            number => Err(Error::told(number, 0)),
        }
    }

    /// Puts the first request at the output's start, or all if optimistic, and answers how many bytes to send.
    ///
    /// Refused with [`Error::OutOfOrder`] a second time, and with [`Error::Settled`] when the handshake is over.
    pub fn start(&mut self, out: &mut [u8; OUT]) -> Result<usize, Error> {
        let step = raw::gitaymba_start(self.raw, out);
        Ok(self.keep(step)?.sent)
    }

    /// Takes a piece of what the proxy sent, of any length, and puts what it makes due at the output's start.
    ///
    /// Refused with [`Error::OutOfOrder`] before the start, and with [`Error::Settled`] when the handshake is over.
    pub fn deliver(&mut self, piece: &[u8], out: &mut [u8; OUT]) -> Result<Progress, Error> {
        let step = raw::deliver(self.raw, piece, out);
        self.keep(step)
    }

    /// The proxy's stream has ended: the session fails with [`Error::UnexpectedEof`].
    ///
    /// Refused with [`Error::OutOfOrder`] before the start, and with [`Error::Settled`] when the handshake is over.
    pub fn end(&mut self) -> Result<(), Error> {
        let step = raw::gitaymba_end(self.raw);
        self.keep(step).map(|_| ())
    }

    /// How the session stands.
    pub fn outcome(&self) -> Outcome {
        let raw::Outcome { state, number, status } = raw::gitaymba_outcome(self.raw);
        match state {
            raw::STATE_WAITING => Outcome::Waiting,
            raw::STATE_OPEN => Outcome::Open,
            _ => Outcome::Failed(Error::told(number, status)),
        }
    }

    /// The address that the proxy says it has bound, if the session is open.
    pub fn bound(&self) -> Option<Address> {
        let raw::Address { port, kind, len, bytes } = raw::gitaymba_bound(self.raw);
        (self.outcome() == Outcome::Open).then(|| Address::told(kind, &bytes, len.into(), port))
    }

    /// The bound address as text, if the session is open: `192.0.2.7:8080`, `[2001:db8::1]:8080` or `name:8080`, a name as received.
    pub fn bound_text(&self) -> Option<String> {
        let mut text = [0; TEXT];
        let written = raw::gitaymba_bound_text(self.raw, &mut text);
        (written.answer == 0).then(|| String::from_utf8_lossy(&text[..written.len]).into_owned())
    }

    /// How often a reply was read for: for each delivery of at least one byte the replies that it decided, and one more if it left the
    /// session waiting.
    pub fn attempts(&self) -> u64 {
        raw::gitaymba_attempts(self.raw)
    }

    fn keep(&mut self, step: raw::Step) -> Result<Progress, Error> {
        if step.answer != 0 {
            return Err(Error::told(step.answer, 0));
        }
        self.raw = step.session;
        Ok(Progress { used: step.used, sent: step.sent })
    }
}

impl Drop for Session {
    fn drop(&mut self) {
        wipe(&mut self.raw.requests);
    }
}

/// Tells nothing of the requests, which hold user and password.
impl fmt::Debug for Session {
    fn fmt(&self, f: &mut fmt::Formatter<'_>) -> fmt::Result {
        f.debug_struct("Session").field("outcome", &self.outcome()).field("attempts", &self.attempts()).finish_non_exhaustive()
    }
}

#[cfg(test)]
mod tests {
    use super::*;
    use std::mem::MaybeUninit;
    use std::ptr::addr_of;

    const ZEROS: raw::Session = raw::Session {
        attempts: 0,
        held: 0,
        first: 0,
        authentication: 0,
        proxy: 0,
        port: 0,
        kind: 0,
        stage: 0,
        error: 0,
        status: 0,
        started: 0,
        optimistic: 0,
        hold: [0; 261],
        requests: [0; 1024],
    };

    #[test]
    fn all_zeros_refuse_every_call() {
        let (mut session, mut out) = (Session { raw: ZEROS }, [7; OUT]);
        assert_eq!(session.start(&mut out), Err(Error::Settled));
        assert_eq!(session.deliver(&[5, 0], &mut out), Err(Error::Settled));
        assert_eq!(session.end(), Err(Error::Settled));
        assert_eq!(session.outcome(), Outcome::Failed(Error::Settled));
        assert_eq!((session.bound(), session.bound_text(), session.attempts()), (None, None, 0));
        assert_eq!(out, [7; OUT]);
    }

    #[test]
    #[allow(unsafe_code)]
    fn drop_wipes_the_requests() {
        let destination = Destination::v5_with(Credentials::new("alice", "wonder"), "192.0.2.7", 443);
        let session = Session::prepare(&destination).unwrap();
        assert!(session.raw.requests.windows(6).any(|part| part == b"wonder"));
        let mut place = MaybeUninit::new(session);
        // SAFETY: the session is dropped once; what is read behind it is an array of bytes, whose memory is still the place's.
        let left = unsafe {
            place.assume_init_drop();
            addr_of!((*place.as_ptr()).raw.requests).read()
        };
        assert_eq!(left, [0; 1024]);
    }
}
