//! Handshakes over streams.
use gitaymba::{Address, Credentials, Destination, Error, Tunnel, accept, connect};
use std::collections::VecDeque;
use std::io::{self, ErrorKind, Read, Write};
use std::net::{TcpListener, TcpStream};
use std::thread;

const REPLIES: &[u8] = b"\x05\x00\x05\x00\x00\x01\xc0\x00\x02\x07\x1f\x90SDF";
const REQUESTS: &[u8] = b"\x05\x01\x00\x05\x01\x00\x01\xc0\x00\x02\x07\x01\xbb";

/// A stream whose reads give these pieces, and an error where there is none; then it ends.
#[derive(Debug, Default)]
struct Pieces {
    reads: VecDeque<Result<Vec<u8>, ErrorKind>>,
    written: Vec<u8>,
}

impl Pieces {
    fn of<'a>(pieces: impl IntoIterator<Item = &'a [u8]>) -> Pieces {
        Pieces { reads: pieces.into_iter().map(|piece| Ok(piece.to_vec())).collect(), written: Vec::new() }
    }
}

impl Read for Pieces {
    fn read(&mut self, buffer: &mut [u8]) -> io::Result<usize> {
        let Some(piece) = self.reads.pop_front() else { return Ok(0) };
        let mut piece = piece?;
        let n = piece.len().min(buffer.len());
        buffer[..n].copy_from_slice(&piece[..n]);
        if n < piece.len() {
            self.reads.push_front(Ok(piece.split_off(n)));
        }
        Ok(n)
    }
}

impl Write for Pieces {
    fn write(&mut self, bytes: &[u8]) -> io::Result<usize> {
        // short writes are lawful
        let n = bytes.len().min(2);
        self.written.extend(&bytes[..n]);
        Ok(n)
    }

    fn flush(&mut self) -> io::Result<()> {
        Ok(())
    }
}

fn destination() -> Destination<'static> {
    Destination::v5("192.0.2.7", 443)
}

/// The error inside, with the kind around it.
fn told(error: io::Error) -> (ErrorKind, Option<Error>) {
    (error.kind(), error.get_ref().and_then(|inner| inner.downcast_ref::<Error>()).copied())
}

#[test]
fn no_cut_loses_a_byte() {
    // no piece is empty: that would be the stream's end
    let cuts = (1..REPLIES.len()).map(|at| vec![&REPLIES[..at], &REPLIES[at..]]);
    let lengths = (1..=REPLIES.len()).map(|n| REPLIES.chunks(n).collect());
    for pieces in cuts.chain(lengths) {
        let (mut stream, mut all) = connect(Pieces::of(pieces.clone()), &destination()).unwrap();
        assert_eq!(stream.written, REQUESTS);
        stream.read_to_end(&mut all).unwrap();
        assert_eq!(all, b"SDF", "{pieces:?}");

        let (mut tunnel, mut all) = (Tunnel::connect(Pieces::of(pieces.clone()), &destination()).unwrap(), Vec::new());
        assert_eq!(tunnel.bound(), &Address::Ip("192.0.2.7:8080".parse().unwrap()));
        tunnel.read_to_end(&mut all).unwrap();
        assert_eq!(all, b"SDF", "{pieces:?}");
    }
}

#[test]
fn interruptions_are_passed_over() {
    let mut pieces = Pieces::of(REPLIES.chunks(1));
    for at in 0..REPLIES.len() {
        pieces.reads.insert(2 * at, Err(ErrorKind::Interrupted));
    }
    assert_eq!(connect(pieces, &destination()).unwrap().0.written, REQUESTS);
}

#[test]
fn a_tunnel_reads_the_leftover_first() {
    let mut tunnel = Tunnel::connect(Pieces::of([REPLIES, b"G"]), &destination()).unwrap();
    assert_eq!(format!("{tunnel:?}").matches("leftover: 3").count(), 1);
    assert_eq!(tunnel.read(&mut []).unwrap(), 0);
    let mut byte = [0];
    tunnel.read_exact(&mut byte).unwrap();
    assert_eq!((byte, tunnel.leftover()), (*b"S", &b"DF"[..]));
    tunnel.write_all(b"ping").unwrap();
    tunnel.flush().unwrap();
    assert!(tunnel.get_ref().written.ends_with(b"ping"));
    tunnel.get_mut().written.clear();
    let (mut stream, mut all) = tunnel.into_inner();
    assert_eq!(all, b"DF");
    stream.read_to_end(&mut all).unwrap();
    assert_eq!((&all[..], stream.written.len()), (&b"DFG"[..], 0));
}

#[test]
fn failures() {
    let fails = |stream: Pieces| told(connect(stream, &destination()).unwrap_err());
    for at in 0..REPLIES.len() - 3 {
        let pieces = Pieces::of([&REPLIES[..at]].into_iter().filter(|piece| !piece.is_empty()));
        assert_eq!(fails(pieces), (ErrorKind::UnexpectedEof, Some(Error::UnexpectedEof)));
    }
    assert_eq!(fails(Pieces::of([&[5, 255][..]])), (ErrorKind::PermissionDenied, Some(Error::Unsupported)));
    assert_eq!(fails(Pieces::of([&b"HTTP/1.1 400"[..]])), (ErrorKind::InvalidData, Some(Error::Parsing)));
    let refused: [&[u8]; 2] = [&[5, 0], &[5, 5, 0, 1, 0, 0, 0, 0, 0, 0]];
    assert_eq!(fails(Pieces::of(refused)), (ErrorKind::ConnectionRefused, Some(Error::Command(5))));
    let reads = VecDeque::from([Ok(vec![5]), Err(ErrorKind::TimedOut)]);
    assert_eq!(fails(Pieces { reads, ..Pieces::default() }), (ErrorKind::TimedOut, None));
    // nothing goes to the proxy for a destination that is refused, and a lent stream stays the caller's
    let mut stream = Pieces::of([REPLIES]);
    let error = connect(&mut stream, &Destination::v5("", 80)).unwrap_err();
    assert_eq!((told(error), stream.written.len()), ((ErrorKind::InvalidInput, Some(Error::MissingHost)), 0));
}

#[test]
fn an_accepted_client_loses_no_byte() {
    let bound = "192.0.2.7:8080".parse().unwrap();
    let requests = [REQUESTS, b"ping"].concat();
    for n in 1..=requests.len() {
        let (mut stream, mut all) = accept(Pieces::of(requests.chunks(n)), None, |_| Ok(bound)).unwrap();
        assert_eq!(stream.written, REPLIES[..12]);
        stream.read_to_end(&mut all).unwrap();
        assert_eq!(all, b"ping", "{n}");
    }
    for n in 0..REQUESTS.len() {
        let error = accept(Pieces::of(REQUESTS[..n].chunks(1)), None, |_| Ok(bound)).unwrap_err();
        assert_eq!(told(error), (ErrorKind::UnexpectedEof, Some(Error::UnexpectedEof)));
    }
}

/// Both ends over a socket; the proxy's sends `SDF` behind its reply and reads `ping`.
fn over_a_socket(credentials: Option<Credentials<'static>>, destination: Destination, status: Option<u8>) -> [io::Result<()>; 2] {
    let listener = TcpListener::bind("127.0.0.1:0").unwrap();
    let address = listener.local_addr().unwrap();
    let wanted = format!("{}:{}", String::from_utf8_lossy(destination.host), destination.port);
    let proxy = thread::spawn(move || -> io::Result<()> {
        let client = listener.accept()?.0;
        let (mut client, mut text) = accept(client, credentials, |asked| {
            assert_eq!(asked.to_string(), wanted);
            status.map_or(Ok(address), Err)
        })?;
        client.write_all(b"SDF")?;
        client.shutdown(std::net::Shutdown::Write)?;
        client.read_to_end(&mut text)?;
        assert_eq!(text, b"ping");
        Ok(())
    });
    let client = || -> io::Result<()> {
        let (mut tunnel, mut text) = (Tunnel::connect(TcpStream::connect(address)?, &destination)?, String::new());
        assert_eq!(tunnel.bound(), &Address::Ip(address));
        tunnel.write_all(b"ping")?;
        tunnel.read_to_string(&mut text)?;
        assert_eq!(text, "SDF");
        Ok(())
    };
    [client(), proxy.join().unwrap()]
}

#[test]
fn sockets() {
    let alice = Credentials::new("alice", "wonder");
    for (credentials, destination) in [
        (None, Destination::v5("192.0.2.7", 443)),
        (None, Destination::v5("[2001:db8::1]", 443)),
        (Some(alice), Destination::v5_with(alice, "example.com", 80)),
        (None, Destination::v4("192.0.2.7", 443)),
        (None, Destination::v4("example.com", 80)),
    ] {
        over_a_socket(credentials, destination, None).into_iter().for_each(Result::unwrap);
        let told = over_a_socket(credentials, destination, Some(2)).map(|end| told(end.unwrap_err()).1);
        let status = if destination.config == gitaymba::Config::V4 { 91 } else { 2 };
        assert_eq!(told, [Some(Error::Command(status)); 2]);
    }
    let [client, proxy] = over_a_socket(Some(alice), Destination::v5_with(Credentials::new("alice", "x"), "a", 80), None);
    assert_eq!(told(client.unwrap_err()).1, Some(Error::Failed));
    assert_eq!(told(proxy.unwrap_err()), (ErrorKind::PermissionDenied, Some(Error::WrongCredentials)));
}
