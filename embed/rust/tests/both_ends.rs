//! A session against the proxy's end, in memory, over cuts of both streams.
use gitaymba::{Address, Config, Credentials, Destination, Error, OUT, Outcome, Record, Server, ServerOutcome, Session};
use std::net::{Ipv4Addr, SocketAddr};

const ALICE: Credentials = Credentials { user: b"alice", password: b"wonder" };
const STREAM: &[u8] = b"SDF";

/// A way: bytes, how many have been delivered, and how many go from there at most.
struct Way<'a> {
    bytes: Vec<u8>,
    at: usize,
    cut: &'a dyn Fn(usize) -> usize,
}

impl Way<'_> {
    fn piece(&self) -> &[u8] {
        let end = self.bytes.len().min(self.at.saturating_add((self.cut)(self.at)));
        &self.bytes[self.at..end]
    }
}

/// Runs both ends until nothing moves. The proxy's end sends the stream right behind its reply.
fn meet(destination: &Destination, credentials: Option<Credentials>, cuts: [&dyn Fn(usize) -> usize; 2]) -> (Session, Server, Vec<u8>) {
    let bound = "192.0.2.7:8080".parse().unwrap();
    let (mut session, mut server, mut out) = (Session::prepare(destination).unwrap(), Server::set_up(credentials).unwrap(), [0; OUT]);
    let [mut to_server, mut to_client] = cuts.map(|cut| Way { bytes: Vec::new(), at: 0, cut });
    let n = session.start(&mut out).unwrap();
    to_server.bytes.extend(&out[..n]);
    loop {
        let piece = to_server.piece();
        if server.outcome() == ServerOutcome::Waiting && !piece.is_empty() {
            let progress = server.deliver(piece, &mut out).unwrap();
            to_server.at += progress.used;
            to_client.bytes.extend(&out[..progress.sent]);
        } else if server.outcome() == ServerOutcome::Asked {
            let n = server.grant(bound, &mut out).unwrap();
            to_client.bytes.extend(&out[..n]);
            to_client.bytes.extend(STREAM);
        } else if session.outcome() == Outcome::Waiting && !to_client.piece().is_empty() {
            let progress = session.deliver(to_client.piece(), &mut out).unwrap();
            to_client.at += progress.used;
            to_server.bytes.extend(&out[..progress.sent]);
        } else {
            return (session, server, to_client.bytes.split_off(to_client.at));
        }
    }
}

/// Every two lengths of pieces, and every two cuts in two.
fn each_cut(mut check: impl FnMut([&dyn Fn(usize) -> usize; 2])) {
    let longest = 40;
    for m in 1..=longest {
        for n in 1..=longest {
            check([&|at| m - at % m, &|at| n - at % n]);
            check([&|at| if at < m { m - at } else { usize::MAX }, &|at| if at < n { n - at } else { usize::MAX }]);
        }
    }
}

#[test]
fn both_open_with_the_same_destination() {
    let records = [Record::from(Ipv4Addr::new(192, 0, 2, 9))];
    let ip = |text: &str| Address::Ip(text.parse().unwrap());
    let name = || Address::Name { name: b"example.com".to_vec(), port: 80 };
    let optimistic = |credentials| Config::V5 { credentials, optimistic: true };
    for (destination, credentials, wanted) in [
        (Destination::v5("192.0.2.7", 443), None, ip("192.0.2.7:443")),
        (Destination::v5("[2001:db8::1]", 443), None, ip("[2001:db8::1]:443")),
        (Destination::v5("example.com", 80), None, name()),
        (Destination::v5_with(ALICE, "example.com", 80), Some(ALICE), name()),
        (Destination { config: optimistic(None), ..Destination::v5("example.com", 80) }, None, name()),
        (Destination { config: optimistic(Some(ALICE)), ..Destination::v5("example.com", 80) }, Some(ALICE), name()),
        (Destination::v5("example.com", 80).with_lookup(&records), None, ip("192.0.2.9:80")),
        (Destination::v4("192.0.2.7", 443), None, ip("192.0.2.7:443")),
        (Destination::v4("example.com", 80), None, name()),
        (Destination::v4("example.com", 80).with_lookup(&records), None, ip("192.0.2.9:80")),
    ] {
        each_cut(|cuts| {
            let (session, server, rest) = meet(&destination, credentials, cuts);
            assert_eq!((session.outcome(), server.outcome()), (Outcome::Open, ServerOutcome::Open), "{destination:?}");
            assert_eq!((server.destination(), session.bound_text().as_deref()), (Some(wanted.clone()), Some("192.0.2.7:8080")));
            assert_eq!(rest, STREAM);
        });
    }
}

/// Cuts behind each byte whose bit is set.
fn masked(mask: u64) -> impl Fn(usize) -> usize {
    move |at| (mask >> at).trailing_zeros() as usize + 1
}

#[test]
fn both_open_over_every_cut() {
    let check = |destination: &Destination, masks: [u64; 2]| {
        let (session, server, rest) = meet(destination, None, [&masked(masks[0]), &masked(masks[1])]);
        assert_eq!((session.outcome(), server.outcome()), (Outcome::Open, ServerOutcome::Open), "{masks:?}");
        assert_eq!(rest, STREAM, "{masks:?}");
    };
    // 9 bytes there, and 8 back with the stream behind them
    let v4 = Destination::v4("192.0.2.7", 443);
    (0..1 << 8).for_each(|there| (0..1 << 8).for_each(|back| check(&v4, [there, back])));
    // 13 bytes there and 12 back: too many cuts to take each with each
    let v5 = Destination::v5("192.0.2.7", 443);
    (0..1 << 12).for_each(|cut| {
        check(&v5, [cut, !0]);
        check(&v5, [!0, cut]);
    });
}

#[test]
fn both_fail_with_other_credentials() {
    let destination = Destination::v5_with(Credentials::new("alice", "wonders"), "example.com", 80);
    each_cut(|cuts| {
        let (session, server, _) = meet(&destination, Some(ALICE), cuts);
        assert_eq!(session.outcome(), Outcome::Failed(Error::Failed));
        assert_eq!((server.outcome(), server.destination()), (ServerOutcome::Failed(Error::WrongCredentials), None));
    });
    for (destination, credentials) in [(Destination::v5("a", 80), Some(ALICE)), (Destination::v5_with(ALICE, "a", 80), None)] {
        let (session, server, _) = meet(&destination, credentials, [&|_| 1, &|_| 1]);
        assert_eq!(session.outcome(), Outcome::Failed(Error::Unsupported));
        assert_eq!(server.outcome(), ServerOutcome::Failed(Error::Unsupported));
    }
    let (session, server, _) = meet(&Destination::v4("a", 80), Some(ALICE), [&|_| 1, &|_| 1]);
    assert_eq!(session.outcome(), Outcome::Failed(Error::Command(91)));
    assert_eq!(server.outcome(), ServerOutcome::Failed(Error::WrongCredentials));
}

/// A proxy's end that awaits its answer.
fn asked(request: &[u8]) -> Server {
    let mut server = Server::set_up(None).unwrap();
    let progress = server.deliver(&[request, STREAM].concat(), &mut [0; OUT]).unwrap();
    assert_eq!((progress.used, server.outcome()), (request.len(), ServerOutcome::Asked));
    server
}

const V5: &[u8] = &[5, 1, 0, 5, 1, 0, 1, 192, 0, 2, 7, 1, 187];
const V4: &[u8] = &[4, 1, 1, 187, 192, 0, 2, 7, 0];

#[test]
fn answers_of_each_version() {
    let short: SocketAddr = "192.0.2.9:8080".parse().unwrap();
    let long: SocketAddr = "[2001:db8::1]:8080".parse().unwrap();
    let zeros = SocketAddr::from((Ipv4Addr::UNSPECIFIED, 0));
    let v6 = [&[5, 0, 0, 4, 0x20, 1, 0xd, 0xb8][..], &[0; 11], &[1, 0x1f, 0x90]].concat();
    for (request, status, bound, reply, outcome) in [
        (V5, None, short, &[5, 0, 0, 1, 192, 0, 2, 9, 0x1f, 0x90][..], ServerOutcome::Open),
        (V5, None, long, &v6, ServerOutcome::Open),
        (V5, Some(0), short, &[5, 0, 0, 1, 192, 0, 2, 9, 0x1f, 0x90], ServerOutcome::Open),
        (V5, Some(5), zeros, &[5, 5, 0, 1, 0, 0, 0, 0, 0, 0], ServerOutcome::Failed(Error::Command(5))),
        (V5, Some(90), zeros, &[5, 1, 0, 1, 0, 0, 0, 0, 0, 0], ServerOutcome::Failed(Error::Command(1))),
        (V4, None, short, &[0, 90, 0x1f, 0x90, 192, 0, 2, 9], ServerOutcome::Open),
        (V4, None, long, &[0, 90, 0x1f, 0x90, 0, 0, 0, 0], ServerOutcome::Open),
        (V4, Some(0), zeros, &[0, 91, 0, 0, 0, 0, 0, 0], ServerOutcome::Failed(Error::Command(91))),
        (V4, Some(92), zeros, &[0, 92, 0, 0, 0, 0, 0, 0], ServerOutcome::Failed(Error::Command(92))),
    ] {
        let (mut server, mut out) = (asked(request), [0; OUT]);
        let n = match status {
            None => server.grant(bound, &mut out),
            Some(status) => server.answer(status, bound, &mut out),
        };
        assert_eq!((&out[..n.unwrap()], server.outcome()), (reply, outcome));
    }
}

#[test]
fn calls_out_of_turn_change_nothing() {
    let (mut out, bound) = ([7; OUT], "192.0.2.9:8080".parse().unwrap());
    let mut server = Server::set_up(None).unwrap();
    assert_eq!(server.grant(bound, &mut out), Err(Error::Settled));
    assert_eq!((server.outcome(), server.destination()), (ServerOutcome::Waiting, None));
    let mut server = asked(V5);
    assert_eq!(server.deliver(&[0], &mut out), Err(Error::Settled));
    assert_eq!(server.end(), Err(Error::Settled));
    assert_eq!((server.outcome(), out), (ServerOutcome::Asked, [7; OUT]));
    server.grant(bound, &mut [0; OUT]).unwrap();
    assert_eq!(server.grant(bound, &mut out), Err(Error::Settled));
    assert_eq!((server.outcome(), out), (ServerOutcome::Open, [7; OUT]));
    let mut server = Server::set_up(None).unwrap();
    server.end().unwrap();
    assert_eq!(server.outcome(), ServerOutcome::Failed(Error::UnexpectedEof));
    assert_eq!(Server::set_up(Some(Credentials::new(&[0; 256], ""))).err(), Some(Error::CredentialTooLong));
    let mut server = Server::set_up(None).unwrap();
    server.deliver(b"GET / HTTP/1.1", &mut out).unwrap();
    assert_eq!(server.outcome(), ServerOutcome::Failed(Error::Malformed));
}
