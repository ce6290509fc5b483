//! One session by document 01 with requests F-1, F-4, F-7 and F-8 in plain Rust: what preparing checks, what a session
//! sends and expects, and the plain machine. Written from their words, not from the original.
use crate::case::*;
use std::net::IpAddr;

// ---- Host, Address text, Lookup

pub fn strip(host: &[u8]) -> &[u8] {
    match host {
        [b'[', inside @ .., b']'] => inside,
        _ => host,
    }
}

pub fn address_text(host: &[u8]) -> Option<IpAddr> {
    std::str::from_utf8(host).ok()?.parse().ok()
}

pub fn address(record: &Record) -> IpAddr {
    match record {
        (4, [a, b, c, d, ..]) => IpAddr::from([*a, *b, *c, *d]),
        (_, bytes) => IpAddr::from(*bytes),
    }
}

fn looked_up(case: &Opening) -> Option<IpAddr> {
    case.records.iter().map(address).find(|ip| case.version == 5 || ip.is_ipv4())
}

// The address asked for, typed or looked up; none means the name is sent.
fn asked(case: &Opening) -> Option<IpAddr> {
    match address_text(strip(&case.host)) {
        None if case.has(LOCAL_LOOKUP) => looked_up(case),
        text => text,
    }
}

// 0.0.0.x with x not zero: over v4 it announces a name.
fn announces(ip: IpAddr) -> bool {
    matches!(ip, IpAddr::V4(ip) if matches!(ip.octets(), [0, 0, 0, 1..=255]))
}

// ---- the output that a call asks

// The longest requests of a v5 session: greeting, credentials, connect.
const OUTPUT5: usize = 3 + 513 + 262;

pub fn start_asks(case: &Opening) -> usize {
    if case.version == 5 { OUTPUT5 } else { 1024 }
}

pub fn delivery_asks(case: &Opening) -> usize {
    if case.version == 5 { OUTPUT5 } else { 262 }
}

// ---- Opening v5, Opening v4: the number of the first check that refuses, else 0

pub fn prepare(case: &Opening) -> u8 {
    let (v5, host) = (case.version == 5, strip(&case.host));
    let text = address_text(host);
    let lookup_fails = || case.has(LOCAL_LOOKUP) && looked_up(case).is_none();
    if host.is_empty() {
        2
    } else if host.iter().any(|b| !(0x21..=0x7E).contains(b)) {
        3
    } else if !case.has(PORT) {
        4
    } else if v5 && case.has(CREDENTIALS) && case.user.len().max(case.password.len()) > 255 {
        5
    } else if !v5 && text.is_some_and(|ip| ip.is_ipv6()) {
        7
    } else if text.is_none() && host.len() > if v5 { 255 } else { 1014 } {
        6
    } else if text.is_none() && lookup_fails() {
        8
    } else if !v5 && asked(case).is_some_and(announces) {
        23
    } else {
        0
    }
}

// ---- v5 requests, v4 request

fn method(case: &Opening) -> u8 {
    if case.has(CREDENTIALS) { 2 } else { 0 }
}

fn credentials(case: &Opening) -> Vec<u8> {
    let (user, password) = (&case.user[..], &case.password[..]);
    [&[1, user.len() as u8], user, &[password.len() as u8], password].concat()
}

pub fn connect(case: &Opening) -> Vec<u8> {
    let host = strip(&case.host);
    let destination = match asked(case) {
        Some(IpAddr::V4(ip)) => [&[1], &ip.octets()[..]].concat(),
        Some(IpAddr::V6(ip)) => [&[4], &ip.octets()[..]].concat(),
        None => [&[3, host.len() as u8], host].concat(),
    };
    [&[5, 1, 0], &destination[..], &case.port.to_be_bytes()].concat()
}

fn request4(case: &Opening) -> Vec<u8> {
    let start = [&[4, 1], &case.port.to_be_bytes()[..]].concat();
    match asked(case) {
        Some(IpAddr::V4(ip)) => [&start, &ip.octets()[..], &[0]].concat(),
        _ => [&start, &[0, 0, 0, 0xFF, 0][..], strip(&case.host), &[0]].concat(),
    }
}

// ---- reading replies

#[derive(Clone, Copy, PartialEq, Eq, Hash)]
pub enum Reply {
    Method(u8),
    Credential,
    Connect,
    V4,
}

// Where a reply is decided, its number (0 is good) and its status.
type Decided = (usize, u8, u8);

// None: not decided by these bytes.
fn decide(reply: &Reply, bytes: &[u8]) -> Option<Decided> {
    match reply {
        Reply::Method(sent) => decide_method(*sent, bytes.get(..2)?),
        Reply::Credential => decide_credential(bytes.get(..2)?),
        Reply::Connect => decide_connect(bytes),
        Reply::V4 => decide_v4(bytes.get(..8)?),
    }
}

fn decide_method(sent: u8, reply: &[u8]) -> Option<Decided> {
    let number = match (reply[0], reply[1]) {
        (5, 0xFF) => 12,
        (5, method @ (0 | 2)) if method == sent => 0,
        (5, 0 | 2) => 13,
        _ => 10,
    };
    Some((2, number, 0))
}

fn decide_credential(reply: &[u8]) -> Option<Decided> {
    let number = match (reply[0], reply[1]) {
        (1, 0) => 0,
        (1, _) => 14,
        _ => 10,
    };
    Some((2, number, 0))
}

fn decide_connect(bytes: &[u8]) -> Option<Decided> {
    let start = bytes.get(..3)?;
    if start[0] != 5 || start[1] > 8 || start[2] != 0 {
        return Some((3, 10, 0));
    }
    let length = usize::from(*bytes.get(4)?);
    let whole = match bytes[3] {
        1 => 10,
        4 => 22,
        3 if length > 0 => 7 + length,
        _ => return Some((5, 10, 0)),
    };
    let reply = bytes.get(..whole)?;
    if reply[3] == 3 && std::str::from_utf8(&reply[5..5 + length]).is_err() {
        return Some((whole, 10, 0));
    }
    Some((whole, if reply[1] == 0 { 0 } else { 15 }, reply[1]))
}

fn decide_v4(reply: &[u8]) -> Option<Decided> {
    Some(match (reply[0], reply[1]) {
        (0, 90) => (8, 0, 0),
        (0, status @ 91..=93) => (8, 15, status),
        _ => (8, 10, 0),
    })
}

// ---- the bound address and its text

pub enum Bound {
    Four([u8; 4]),
    Six([u8; 16]),
    Name(Vec<u8>),
}

// Of a good reply, whole: its address and port, if it is of a kind that has them.
fn bound(reply: &Reply, bytes: &[u8]) -> Option<(Bound, u16)> {
    let (address, port) = match reply {
        Reply::Method(_) | Reply::Credential => return None,
        Reply::V4 => (Bound::Four(bytes[4..].try_into().ok()?), &bytes[2..4]),
        Reply::Connect => {
            let (start, port) = bytes.split_at(bytes.len() - 2);
            let address = match start[3] {
                1 => Bound::Four(start[4..].try_into().ok()?),
                4 => Bound::Six(start[4..].try_into().ok()?),
                _ => Bound::Name(start[5..].to_vec()),
            };
            (address, port)
        }
    };
    Some((address, u16::from_be_bytes(port.try_into().ok()?)))
}

// RFC 5952 section 4, in hexadecimal groups only.
fn six_text(address: &[u8; 16]) -> String {
    let groups: Vec<u16> = address.chunks(2).map(|two| u16::from_be_bytes([two[0], two[1]])).collect();
    let joined = |some: &[u16]| some.iter().map(|group| format!("{group:x}")).collect::<Vec<_>>().join(":");
    let zeros = |at: usize| groups[at..].iter().take_while(|group| **group == 0).count();
    let (mut at, mut run) = (0, 0);
    for place in 0..8 {
        if zeros(place) > run {
            (at, run) = (place, zeros(place));
        }
    }
    match run {
        0 | 1 => joined(&groups),
        _ => format!("{}::{}", joined(&groups[..at]), joined(&groups[at + run..])),
    }
}

pub fn bound_text((address, port): &(Bound, u16)) -> Vec<u8> {
    let mut text = match address {
        Bound::Four([a, b, c, d]) => format!("{a}.{b}.{c}.{d}").into_bytes(),
        Bound::Six(address) => format!("[{}]", six_text(address)).into_bytes(),
        Bound::Name(name) => name.clone(),
    };
    text.extend(format!(":{port}").into_bytes());
    text
}

// ---- the plain machine

pub enum Step {
    Send(Vec<u8>),
    Expect(Reply),
}

// What a started session sends and expects, in order.
pub fn plan(case: &Opening) -> Vec<Step> {
    use Step::*;
    if case.version == 4 {
        return vec![Send(request4(case)), Expect(Reply::V4)];
    }
    let mut steps = vec![Send(vec![5, 1, method(case)]), Expect(Reply::Method(method(case)))];
    if case.has(CREDENTIALS) {
        steps.extend([Send(credentials(case)), Expect(Reply::Credential)]);
    }
    steps.extend([Send(connect(case)), Expect(Reply::Connect)]);
    if case.has(OPTIMISTIC) {
        steps.sort_by_key(|step| matches!(step, Expect(_)));
    }
    steps
}

pub struct State {
    pub sent: Vec<u8>,
    pub outcome: Option<u8>,
    pub status: u8,
    pub used: usize,
    // replies, good or bad
    pub decided: usize,
    pub bound: Option<(Bound, u16)>,
}

pub fn machine(steps: &[Step], list: &[u8]) -> State {
    let mut now = State { sent: vec![], outcome: None, status: 0, used: 0, decided: 0, bound: None };
    for step in steps {
        match step {
            Step::Send(request) => now.sent.extend(request),
            Step::Expect(reply) => {
                let Some((count, number, status)) = decide(reply, &list[now.used..]) else {
                    now.used = list.len();
                    return now;
                };
                let read = &list[now.used..now.used + count];
                now.used += count;
                now.decided += 1;
                if number != 0 {
                    (now.outcome, now.status) = (Some(number), status);
                    return now;
                }
                now.bound = bound(reply, read);
            }
        }
    }
    now.outcome = Some(0);
    now
}
