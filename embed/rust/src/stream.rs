use crate::raw::{OUT, wipe};
use crate::{Address, Credentials, Destination, Error, Outcome, Progress, Server, ServerOutcome, Session};
use std::fmt;
use std::io::{self, Read, Write};
use std::net::{Ipv4Addr, SocketAddr};

/// How much is read at once, and so how long a leftover can be.
const PIECE: usize = 4096;

fn send(stream: &mut impl Write, bytes: &[u8]) -> io::Result<()> {
    if bytes.is_empty() {
        return Ok(());
    }
    stream.write_all(bytes)?;
    stream.flush()
}

fn read(stream: &mut impl Read, piece: &mut [u8; PIECE]) -> io::Result<usize> {
    loop {
        match stream.read(piece) {
            Err(error) if error.kind() == io::ErrorKind::Interrupted => {}
            other => return other,
        }
    }
}

/// A buffer that credentials pass through.
struct Wiped<const N: usize>([u8; N]);

impl<const N: usize> Drop for Wiped<N> {
    fn drop(&mut self) {
        wipe(&mut self.0);
    }
}

/// An open session, and what was read behind its handshake.
fn open(stream: &mut (impl Read + Write), destination: &Destination<'_>) -> io::Result<(Session, Vec<u8>)> {
    let mut session = Session::prepare(destination)?;
    let (mut piece, mut out, mut leftover) = ([0; PIECE], Wiped([0; OUT]), Vec::new());
    let sent = session.start(&mut out.0)?;
    send(stream, &out.0[..sent])?;
    loop {
        match session.outcome() {
            Outcome::Waiting => {}
            Outcome::Open => return Ok((session, leftover)),
            Outcome::Failed(error) => return Err(error.into()),
        }
        let n = read(stream, &mut piece)?;
        if n == 0 {
            session.end()?;
            continue;
        }
        let Progress { used, sent } = session.deliver(&piece[..n], &mut out.0)?;
        send(stream, &out.0[..sent])?;
        leftover = piece[used..n].to_vec();
    }
}

/// Asks the proxy at the other end of a stream for a destination, and hands the stream back with its leftover: the destination's first
/// bytes, which came in one piece with the proxy's last reply. They stand before all that the stream gives from now on; [`Tunnel`]
/// reads them in their place.
///
/// The stream must block; its time limits hold for each read and write. A stream that does not block is for a
/// [`Session`](crate::Session). To keep the stream if the handshake fails, lend it: `&mut S` is a stream too.
///
/// # Errors
///
/// Those of the stream, and each [`Error`](crate::Error) as an [`io::Error`] that holds it.
pub fn connect<S: Read + Write>(mut stream: S, destination: &Destination<'_>) -> io::Result<(S, Vec<u8>)> {
    let (_, leftover) = open(&mut stream, destination)?;
    Ok((stream, leftover))
}

/// Serves the client at the other end of a stream: `decide` gets the destination and connects there, or not. `Ok` grants with the address
/// that was bound, `Err` answers with a status as [`Server::answer`] does; 0 and 90 would grant. Handed back are the stream and its
/// leftover: the client's first bytes for the destination.
///
/// # Errors
///
/// Those of the stream, and each [`Error`](crate::Error) as an [`io::Error`] that holds it; the client has been sent then what
/// there is to say to it. A status from `decide` comes back as [`Error::Command`](crate::Error::Command).
pub fn accept<S: Read + Write>(
    mut stream: S,
    credentials: Option<Credentials<'_>>,
    decide: impl FnOnce(&Address) -> Result<SocketAddr, u8>,
) -> io::Result<(S, Vec<u8>)> {
    let mut server = Server::set_up(credentials)?;
    let (mut piece, mut out, mut leftover) = (Wiped([0; PIECE]), [0; OUT], Vec::new());
    while server.outcome() == ServerOutcome::Waiting {
        let n = read(&mut stream, &mut piece.0)?;
        if n == 0 {
            server.end()?;
            continue;
        }
        let Progress { used, sent } = server.deliver(&piece.0[..n], &mut out)?;
        send(&mut stream, &out[..sent])?;
        leftover = piece.0[used..n].to_vec();
    }
    if let Some(destination) = server.destination() {
        let sent = match decide(&destination) {
            Ok(bound) => server.grant(bound, &mut out)?,
            Err(status) => server.answer(status, (Ipv4Addr::UNSPECIFIED, 0).into(), &mut out)?,
        };
        send(&mut stream, &out[..sent])?;
    }
    match server.outcome() {
        ServerOutcome::Open => Ok((stream, leftover)),
        ServerOutcome::Failed(error) => Err(error.into()),
        // the loop has left waiting, and an asked end has been answered
        ServerOutcome::Waiting | ServerOutcome::Asked => Err(Error::Settled.into()),
    }
}

/// A stream to a destination behind a proxy: reads the leftover of the handshake first, and then on.
pub struct Tunnel<S> {
    stream: S,
    bound: Address,
    leftover: Vec<u8>,
    /// So many bytes of the leftover have been read.
    at: usize,
}

impl<S: Read + Write> Tunnel<S> {
    /// As [`connect`], with the leftover kept.
    ///
    /// # Errors
    ///
    /// Those of [`connect`].
    pub fn connect(mut stream: S, destination: &Destination<'_>) -> io::Result<Tunnel<S>> {
        let (session, leftover) = open(&mut stream, destination)?;
        let bound = session.bound().ok_or(Error::NotOpen)?;
        Ok(Tunnel { stream, bound, leftover, at: 0 })
    }
}

impl<S> Tunnel<S> {
    /// The address that the proxy says it has bound.
    pub fn bound(&self) -> &Address {
        &self.bound
    }

    /// What is still unread of the bytes that came with the proxy's last reply.
    pub fn leftover(&self) -> &[u8] {
        &self.leftover[self.at..]
    }

    /// The stream beneath; what is read from it comes behind the leftover.
    pub fn get_ref(&self) -> &S {
        &self.stream
    }

    /// The stream beneath; what is read from it comes behind the leftover.
    pub fn get_mut(&mut self) -> &mut S {
        &mut self.stream
    }

    /// The stream beneath, and what is still unread of the leftover.
    pub fn into_inner(mut self) -> (S, Vec<u8>) {
        self.leftover.drain(..self.at);
        (self.stream, self.leftover)
    }
}

impl<S: Read> Read for Tunnel<S> {
    fn read(&mut self, buffer: &mut [u8]) -> io::Result<usize> {
        if self.leftover().is_empty() {
            return self.stream.read(buffer);
        }
        let n = self.leftover().read(buffer)?;
        self.at += n;
        Ok(n)
    }
}

impl<S: Write> Write for Tunnel<S> {
    fn write(&mut self, bytes: &[u8]) -> io::Result<usize> {
        self.stream.write(bytes)
    }

    fn flush(&mut self) -> io::Result<()> {
        self.stream.flush()
    }
}

/// Tells the leftover's length, and not its bytes.
impl<S: fmt::Debug> fmt::Debug for Tunnel<S> {
    fn fmt(&self, f: &mut fmt::Formatter<'_>) -> fmt::Result {
        let leftover = self.leftover().len();
        f.debug_struct("Tunnel").field("stream", &self.stream).field("bound", &self.bound).field("leftover", &leftover).finish()
    }
}
