//! original PROXY_ADDR:PORT 5|4 HOST PORT: the Rust original's handshake over a `TcpStream`, then the stream to standard output. It
//! is built in the tree that `compare/oracle/build` lays out.
use crate::client::legacy::connect::proxy::socks;
use crate::rt::{Read, ReadBufCursor, Write};
use std::fmt::Debug;
use std::io::{Read as _, Result, Write as _};
use std::net::TcpStream;
use std::pin::{Pin, pin};
use std::task::{Context, Poll, Waker};

#[allow(unused)] // the original, of which only a part is called
mod client;
#[allow(unused)]
mod rt;
#[allow(unused)]
mod standin;

// The original names hyper's `rt`; that of the tree stands in for it.
extern crate self as hyper;

// A connection that blocks, so nothing is ever pending.
struct Connection(TcpStream);

impl Read for Connection {
    // A read of as many bytes as there is room for, which only `fill` tells.
    fn poll_read(mut self: Pin<&mut Self>, _: &mut Context<'_>, buf: ReadBufCursor<'_>) -> Poll<Result<()>> {
        let mut piece = [0; 4096];
        let there = self.0.peek(&mut piece)?;
        let n = buf.fill(&piece[..there]);
        Poll::Ready(self.0.read_exact(&mut piece[..n]))
    }
}

impl Write for Connection {
    fn poll_write(mut self: Pin<&mut Self>, _: &mut Context<'_>, buf: &[u8]) -> Poll<Result<usize>> {
        Poll::Ready(self.0.write(buf))
    }
}

fn done<T, E: Debug>(handshake: impl Future<Output = std::result::Result<T, E>>) {
    match pin!(handshake).poll(&mut Context::from_waker(Waker::noop())) {
        Poll::Ready(Ok(_)) => {}
        Poll::Ready(Err(error)) => panic!("{error:?}"),
        Poll::Pending => panic!("pending"),
    }
}

fn main() -> Result<()> {
    let arguments: Vec<String> = std::env::args().skip(1).collect();
    let [proxy, version, host, port] = &arguments[..] else { panic!("original PROXY_ADDR:PORT 5|4 HOST PORT") };
    let mut connection = Connection(TcpStream::connect(proxy)?);
    let (host, port) = (host.clone(), port.parse().expect("a port"));
    match &version[..] {
        "4" => done(socks::start4(&mut connection, host, port, false)),
        _ => done(socks::start5(&mut connection, host, port, None, false, false)),
    }
    let mut stream = vec![];
    connection.0.read_to_end(&mut stream)?;
    std::io::stdout().write_all(&stream)
}
