//! The original, driven over an in-memory connection with scripted reads.
use crate::case::*;
use crate::client::legacy::connect::proxy::socks;
use crate::model;
use crate::rt::{Read, ReadBufCursor, Write};
use crate::standin::set_records;
use std::io::Result;
use std::pin::{Pin, pin};
use std::task::{Context, Poll, Waker};

// Hands out each piece in as many reads as it takes; then end of stream, or nothing for ever.
pub struct Connection<'a> {
    pieces: &'a [&'a [u8]],
    at: usize,
    end: bool,
    taken: usize,
    sent: Vec<u8>,
}

impl Read for Connection<'_> {
    fn poll_read(mut self: Pin<&mut Self>, _: &mut Context<'_>, buf: ReadBufCursor<'_>) -> Poll<Result<()>> {
        let Some((piece, later)) = self.pieces.split_first() else {
            return if self.end { Poll::Ready(Ok(())) } else { Poll::Pending };
        };
        let n = buf.fill(&piece[self.at..]);
        self.at += n;
        self.taken += n;
        if self.at == piece.len() {
            (self.pieces, self.at) = (later, 0);
        }
        Poll::Ready(Ok(()))
    }
}

impl Write for Connection<'_> {
    fn poll_write(mut self: Pin<&mut Self>, _: &mut Context<'_>, buf: &[u8]) -> Poll<Result<usize>> {
        self.sent.extend(buf);
        Poll::Ready(Ok(buf.len()))
    }
}

// What the original tells: an outcome (none is waiting), and the bytes that it took from the connection.
pub struct Told {
    pub sent: Vec<u8>,
    pub outcome: Option<u8>,
    pub status: u8,
    pub taken: usize,
}

impl Told {
    // Whether it ended with `WouldOverflow`: the next request does not fit its send buffer behind those before.
    pub fn overflows(&self) -> bool {
        self.outcome == Some(11)
    }

    // Whether it asked v4 for 0.0.0.x, x not zero. By the 4A memo that announces a name, and none follows: the proxy
    // would wait for it, so request F-8 refuses what the original sends.
    pub fn announces(&self) -> bool {
        matches!(self.sent[..], [4, _, _, _, 0, 0, 0, 1..=255, 0])
    }
}

fn settled<T>(done: Poll<std::result::Result<T, socks::SocksError<()>>>) -> (Option<u8>, u8) {
    match done {
        Poll::Pending => (None, 0),
        Poll::Ready(Ok(_)) => (Some(0), 0),
        Poll::Ready(Err(error)) => {
            let (number, status) = socks::number(error);
            (Some(number), status)
        }
    }
}

// Polled twice: what is waiting stays so.
fn poll<T>(handshake: impl Future<Output = std::result::Result<T, socks::SocksError<()>>>) -> (Option<u8>, u8) {
    let mut handshake = pin!(handshake);
    let mut cx = Context::from_waker(Waker::noop());
    match handshake.as_mut().poll(&mut cx) {
        Poll::Pending => settled(handshake.poll(&mut cx)),
        done => settled(done),
    }
}

fn run(of: &Opening, pieces: &[&[u8]], end: bool) -> Option<Told> {
    let string = |bytes: &[u8]| String::from_utf8(bytes.to_vec()).ok();
    let host = socks::strip(std::str::from_utf8(&of.host).ok()?).to_string();
    let auth = match of.version == 5 && of.has(CREDENTIALS) {
        true => Some((string(&of.user)?, string(&of.password)?)),
        false => None,
    };
    set_records(of.records.iter().map(model::address).collect());
    let mut conn = Connection { pieces, at: 0, end, taken: 0, sent: vec![] };
    let lookup = of.has(LOCAL_LOOKUP);
    let (outcome, status) = match of.version {
        4 => poll(socks::start4(&mut conn, host, of.port, lookup)),
        _ => poll(socks::start5(&mut conn, host, of.port, auth, lookup, of.has(OPTIMISTIC))),
    };
    Some(Told { sent: conn.sent, outcome, status, taken: conn.taken })
}

// The pieces as they are, then the end of stream or nothing; none if a text of the opening is no Rust string.
pub fn in_pieces(of: &Opening, pieces: &[&[u8]], end: bool) -> Option<Told> {
    // a read of no bytes would be the end of stream
    let pieces: Vec<&[u8]> = pieces.iter().copied().filter(|piece| !piece.is_empty()).collect();
    run(of, &pieces, end)
}

// The same bytes one by one, so that what it took is what it used. No session waits for as many as 1,024.
pub fn in_bytes(of: &Opening, pieces: &[&[u8]], end: bool) -> Option<Told> {
    let bytes: Vec<&[u8]> = pieces.iter().flat_map(|piece| piece.chunks(1)).take(1024).collect();
    run(of, &bytes, end)
}

// Document 01's domain of the comparison.
pub fn in_domain(of: &Opening) -> bool {
    let host = model::strip(&of.host);
    let lawful = |text: &[u8]| text.len() <= 255 && std::str::from_utf8(text).is_ok();
    let plain_host = !host.is_empty() && host.iter().all(|b| (0x21..=0x7E).contains(b));
    let of_version = match of.version {
        4 => host.len() <= 1014,
        _ => !of.has(CREDENTIALS) || lawful(&of.user) && lawful(&of.password),
    };
    plain_host && of.has(PORT) && of_version
}
