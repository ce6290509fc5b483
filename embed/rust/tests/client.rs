//! A session against written-out bytes, cut at every place.
use gitaymba::{Address, Config, Credentials, Destination, Error, OUT, Outcome, Progress, Record, Session};
use std::net::{IpAddr, Ipv4Addr, Ipv6Addr};

const ALICE: Credentials = Credentials { user: b"alice", password: b"wonder" };
const STREAM: &[u8] = b"SDF";

/// What a session sends and tells when it is fed with these pieces, and what they hold behind the handshake.
fn course(destination: &Destination, pieces: &[&[u8]]) -> (Vec<u8>, usize, Vec<u8>, Session) {
    let (mut out, mut used, mut rest) = ([0; OUT], 0, Vec::new());
    let mut session = Session::prepare(destination).unwrap();
    let n = session.start(&mut out).unwrap();
    let mut sent = out[..n].to_vec();
    for piece in pieces {
        let mut progress = Progress { used: 0, sent: 0 };
        if session.outcome() == Outcome::Waiting {
            progress = session.deliver(piece, &mut out).unwrap();
        }
        sent.extend(&out[..progress.sent]);
        used += progress.used;
        rest.extend(&piece[progress.used..]);
    }
    (sent, used, rest, session)
}

/// Checks a handshake in every cut in two, and in pieces of every length.
fn check(destination: Destination, sent: &[&[u8]], replies: &[&[u8]], outcome: Outcome, bound: Option<&str>) {
    let (sent, replies) = (sent.concat(), replies.concat());
    let stream = [&replies, STREAM].concat();
    let cuts = (0..=stream.len()).map(|at| vec![&stream[..at], &stream[at..]]);
    let lengths = (1..=stream.len()).map(|n| stream.chunks(n).collect());
    for pieces in cuts.chain(lengths) {
        let (said, used, rest, session) = course(&destination, &pieces);
        assert_eq!((said, used, &rest[..]), (sent.clone(), replies.len(), STREAM), "{destination:?} {pieces:?}");
        assert_eq!((session.outcome(), session.bound_text().as_deref()), (outcome, bound), "{destination:?} {pieces:?}");
    }
}

const V4_GRANTED: &[u8] = &[0, 90, 0x1f, 0x90, 192, 0, 2, 7];
const V5_GRANTED: &[u8] = &[5, 0, 0, 1, 192, 0, 2, 7, 0x1f, 0x90];
const BOUND: Option<&str> = Some("192.0.2.7:8080");
const LONG: [u8; 16] = [0x20, 1, 0xd, 0xb8, 0, 0, 0, 0, 0, 0, 0, 0, 0, 0, 0, 1];

fn records() -> [Record; 2] {
    [IpAddr::from(Ipv6Addr::from(LONG)).into(), IpAddr::from(Ipv4Addr::new(192, 0, 2, 7)).into()]
}

#[test]
fn v5_address() {
    let sent: [&[u8]; 2] = [&[5, 1, 0], &[5, 1, 0, 1, 192, 0, 2, 7, 1, 187]];
    check(Destination::v5("192.0.2.7", 443), &sent, &[&[5, 0], V5_GRANTED], Outcome::Open, BOUND);
}

#[test]
fn v5_ipv6_address() {
    let sent: [&[u8]; 4] = [&[5, 1, 0], &[5, 1, 0, 4], &LONG, &[1, 187]];
    let replies: [&[u8]; 4] = [&[5, 0], &[5, 0, 0, 4], &LONG, &[0x1f, 0x90]];
    for host in ["2001:db8::1", "[2001:db8::1]"] {
        check(Destination::v5(host, 443), &sent, &replies, Outcome::Open, Some("[2001:db8::1]:8080"));
    }
}

#[test]
fn v5_name() {
    let sent: [&[u8]; 4] = [&[5, 1, 0], &[5, 1, 0, 3, 11], b"example.com", &[0, 80]];
    let replies: [&[u8]; 4] = [&[5, 0], &[5, 0, 0, 3, 4], "dö.".as_bytes(), &[0x1f, 0x90]];
    check(Destination::v5("example.com", 80), &sent, &replies, Outcome::Open, Some("dö.:8080"));
}

#[test]
fn v5_credentials() {
    let destination = Destination::v5_with(ALICE, "192.0.2.7", 443);
    let sent: [&[u8]; 3] = [&[5, 1, 2], b"\x01\x05alice\x06wonder", &[5, 1, 0, 1, 192, 0, 2, 7, 1, 187]];
    check(destination, &sent, &[&[5, 2], &[1, 0], V5_GRANTED], Outcome::Open, BOUND);
    check(destination, &sent[..2], &[&[5, 2], &[1, 7]], Outcome::Failed(Error::Failed), None);
    check(destination, &sent[..1], &[&[5, 255]], Outcome::Failed(Error::Unsupported), None);
    check(destination, &sent[..1], &[&[5, 0]], Outcome::Failed(Error::MethodMismatch), None);
}

#[test]
fn optimistic() {
    let config = Config::V5 { credentials: Some(ALICE), optimistic: true };
    let destination = Destination { config, ..Destination::v5("192.0.2.7", 443) };
    let sent: [&[u8]; 3] = [&[5, 1, 2], b"\x01\x05alice\x06wonder", &[5, 1, 0, 1, 192, 0, 2, 7, 1, 187]];
    assert_eq!(course(&destination, &[]).0, sent.concat());
    check(destination, &sent, &[&[5, 2], &[1, 0], V5_GRANTED], Outcome::Open, BOUND);
}

#[test]
fn lookup() {
    let records = records();
    let sent: [&[u8]; 4] = [&[5, 1, 0], &[5, 1, 0, 4], &LONG, &[1, 187]];
    check(Destination::v5("example.com", 443).with_lookup(&records), &sent, &[&[5, 0], V5_GRANTED], Outcome::Open, BOUND);
    let sent: [&[u8]; 1] = [&[4, 1, 1, 187, 192, 0, 2, 7, 0]];
    check(Destination::v4("example.com", 443).with_lookup(&records), &sent, &[V4_GRANTED], Outcome::Open, BOUND);
}

#[test]
fn v4() {
    let sent: [&[u8]; 1] = [&[4, 1, 1, 187, 192, 0, 2, 7, 0]];
    check(Destination::v4("192.0.2.7", 443), &sent, &[V4_GRANTED], Outcome::Open, BOUND);
    check(Destination::v4("192.0.2.7", 443), &sent, &[&[0, 91, 0, 0, 0, 0, 0, 0]], Outcome::Failed(Error::Command(91)), None);
    check(Destination::v4("192.0.2.7", 443), &sent, &[&[4, 90, 0, 0, 0, 0, 0, 0]], Outcome::Failed(Error::Parsing), None);
}

#[test]
fn v4a() {
    let sent: [&[u8]; 3] = [&[4, 1, 0, 80, 0, 0, 0, 255, 0], b"example.com", &[0]];
    check(Destination::v4("example.com", 80), &sent, &[V4_GRANTED], Outcome::Open, BOUND);
}

#[test]
fn every_status_of_v5() {
    let sent: [&[u8]; 2] = [&[5, 1, 0], &[5, 1, 0, 1, 192, 0, 2, 7, 1, 187]];
    for status in 1..=8 {
        let reply = [5, status, 0, 1, 0, 0, 0, 0, 0, 0];
        check(Destination::v5("192.0.2.7", 443), &sent, &[&[5, 0], &reply], Outcome::Failed(Error::Command(status)), None);
    }
    check(Destination::v5("192.0.2.7", 443), &sent, &[&[5, 0], &[5, 9, 0]], Outcome::Failed(Error::Parsing), None);
}

#[test]
fn bound_addresses() {
    let open = |replies: &[u8]| course(&Destination::v5("192.0.2.7", 443), &[&[5, 0], replies]).3.bound();
    assert_eq!(open(V5_GRANTED), Some(Address::Ip("192.0.2.7:8080".parse().unwrap())));
    assert_eq!(open(&[&[5, 0, 0, 4], &LONG[..], &[0, 80]].concat()), Some(Address::Ip("[2001:db8::1]:80".parse().unwrap())));
    assert_eq!(open(b"\x05\x00\x00\x03\x03tor\x00\x50"), Some(Address::Name { name: b"tor".to_vec(), port: 80 }));
    assert_eq!(open(&[]), None);
}

#[test]
fn attempts() {
    let replies = [&[5, 0], V5_GRANTED].concat();
    let destination = Destination::v5("192.0.2.7", 443);
    assert_eq!(course(&destination, &[&replies]).3.attempts(), 2);
    // one for each byte, and one more for the byte that decides the first reply and leaves the session waiting
    assert_eq!(course(&destination, &replies.chunks(1).collect::<Vec<_>>()).3.attempts(), 13);
}

#[test]
fn refused_destinations() {
    let (long, longer, records) = (vec![b'a'; 256], vec![b'a'; 1015], records());
    let announcing = [Record::from(Ipv4Addr::new(0, 0, 0, 5))];
    for (destination, error) in [
        (Destination::v5("", 80), Error::MissingHost),
        (Destination::v5("[]", 80), Error::MissingHost),
        (Destination::v4("", 80), Error::MissingHost),
        (Destination::v5("a b", 80), Error::HostByte),
        (Destination::v5("ä", 80), Error::HostByte),
        (Destination::v5_with(Credentials::new(&long, ""), "a", 80), Error::CredentialTooLong),
        (Destination::v5_with(Credentials::new("", &long), "a", 80), Error::CredentialTooLong),
        (Destination::v5(&long, 80), Error::HostTooLong),
        (Destination::v4(&longer, 80), Error::HostTooLong),
        (Destination::v4("::1", 80), Error::IpV6),
        (Destination::v5("a", 80).with_lookup(&[]), Error::DnsFailure),
        (Destination::v4("a", 80).with_lookup(&records[..1]), Error::DnsFailure),
        (Destination::v4("0.0.0.5", 80), Error::AnnouncesName),
        (Destination::v4("a", 80).with_lookup(&announcing), Error::AnnouncesName),
    ] {
        assert_eq!(Session::prepare(&destination).err(), Some(error), "{destination:?}");
    }
    for destination in [
        Destination::v5("a", 0),
        Destination::v5("a", 65535),
        Destination::v5(&long[1..], 80),
        Destination::v4(&longer[1..], 80),
        Destination::v5_with(Credentials::new("", ""), "a", 80),
        Destination::v5_with(Credentials::new(&long[1..], &long[1..]), &long[1..], 80),
        Destination::v5("192.0.2.7", 80).with_lookup(&[]),
        Destination::v4("0.0.0.0", 80),
    ] {
        assert!(Session::prepare(&destination).is_ok(), "{destination:?}");
    }
}

#[test]
fn calls_out_of_turn_change_nothing() {
    let mut session = Session::prepare(&Destination::v5("192.0.2.7", 443)).unwrap();
    let (mut out, mut untouched) = ([0; OUT], [7; OUT]);
    assert_eq!(session.deliver(&[5, 0], &mut untouched), Err(Error::OutOfOrder));
    assert_eq!(session.end(), Err(Error::OutOfOrder));
    session.start(&mut out).unwrap();
    assert_eq!(session.start(&mut untouched), Err(Error::OutOfOrder));
    assert_eq!(session.deliver(&[], &mut untouched), Ok(Progress { used: 0, sent: 0 }));
    assert_eq!((session.outcome(), session.bound(), session.bound_text()), (Outcome::Waiting, None, None));
    let mut ended = session.clone();
    session.deliver(&[&[5, 0], V5_GRANTED].concat(), &mut out).unwrap();
    ended.end().unwrap();
    for (session, outcome) in [(&mut session, Outcome::Open), (&mut ended, Outcome::Failed(Error::UnexpectedEof))] {
        assert_eq!(session.start(&mut untouched), Err(Error::Settled));
        assert_eq!(session.deliver(&[5, 0], &mut untouched), Err(Error::Settled));
        assert_eq!(session.end(), Err(Error::Settled));
        assert_eq!(session.outcome(), outcome);
    }
    assert_eq!(session.bound_text().as_deref(), BOUND);
    assert_eq!(untouched, [7; OUT]);
}

#[test]
fn debug_tells_no_credentials() {
    let destination = Destination::v5_with(ALICE, "192.0.2.7", 443);
    assert_eq!(format!("{ALICE:?}"), "Credentials { .. }");
    assert_eq!(format!("{:?}", destination.config), "V5 { credentials: Some(Credentials { .. }), optimistic: false }");
    assert_eq!(format!("{:?}", Session::prepare(&destination).unwrap()), "Session { outcome: Waiting, attempts: 0, .. }");
    assert_eq!(format!("{:?}", gitaymba::Server::set_up(Some(ALICE)).unwrap()), "Server { outcome: Waiting, .. }");
}

#[test]
fn wipe() {
    let mut bytes = *b"alice, wonder";
    gitaymba::wipe(&mut bytes[7..]);
    assert_eq!(&bytes, b"alice, \0\0\0\0\0\0");
}
