//! What a case must answer, field by field, by documents 01 and 02 in plain Rust.
use crate::case::*;
use std::net::IpAddr;

pub mod capture;
pub mod ending;
pub mod line;
mod proxy;
mod session;
mod tunnel;
pub use session::*;
pub use tunnel::{openings, route_asks, route_check};

#[derive(Clone, Copy, PartialEq, Default)]
pub enum Outcome {
    #[default]
    Waiting,
    // a proxy's end that awaits the caller's answer
    Asked,
    // 0 is open, any other number is the failure's
    Settled(u8),
}

#[derive(Clone)]
pub struct Destination {
    // 4, 6 or n
    pub kind: char,
    pub address: Vec<u8>,
    pub port: u16,
}

// What all calls so far have come to.
#[derive(Clone, Default)]
pub struct Now {
    pub sent: Vec<u8>,
    pub used: usize,
    pub outcome: Outcome,
    pub status: u8,
    pub attempts: usize,
    // a piece went on from one proxy to the next
    pub crosses: bool,
    // of the bound address, once open
    pub text: Option<Vec<u8>>,
    pub destination: Option<Destination>,
}

// Of one call: the answer, or the attempts; then its counts, or its text.
pub struct Entry {
    pub number: usize,
    pub counts: Vec<usize>,
    pub text: Option<Vec<u8>>,
}

pub struct Line {
    pub check: u8,
    pub calls: Vec<Entry>,
    pub rests: Vec<u8>,
    now: Now,
}

impl std::ops::Deref for Line {
    type Target = Now;

    fn deref(&self) -> &Now {
        &self.now
    }
}

// A session, a route or a proxy's end, between two calls.
trait Side {
    // The output of a delivery.
    fn asks(&self) -> usize;
    // What the call answers. Unless that is a refusal, it is done.
    fn call(&mut self, call: &Call) -> u8;
    fn now(&self) -> Now;
}

fn run(side: &mut dyn Side, check: u8, calls: &[Call]) -> Line {
    let (mut entries, mut rests, mut now) = (vec![], vec![], side.now());
    for call in calls {
        let (sent, used) = (now.sent.len(), now.used);
        let number = usize::from(side.call(call));
        now = side.now();
        let (sent, used) = (now.sent.len() - sent, now.used - used);
        let entry = |counts: &[usize]| Entry { number, counts: counts.to_vec(), text: None };
        entries.push(match call {
            Call::Start(_) | Call::Answer(..) => entry(&[sent]),
            Call::Piece(..) => entry(&[used, sent]),
            Call::End => entry(&[]),
            Call::Bound(_) => {
                Entry { text: Some(now.text.clone().filter(|_| number == 0).unwrap_or_default()), ..entry(&[]) }
            }
            Call::Attempts => Entry { number: now.attempts, ..entry(&[]) },
        });
        if let Call::Piece(n, piece) = call
            && lent(*n) >= side.asks()
        {
            rests.extend(&piece[used..]);
        }
    }
    Line { check, calls: entries, rests, now }
}

// Of a case that has calls.
pub fn line(case: &Case) -> Line {
    match &case.kind {
        Kind::Text(..) | Kind::Ending(..) | Kind::Captures(..) => panic!("a case without calls"),
        Kind::Session(opening) => run(&mut tunnel::session(opening), prepare(opening), &case.calls),
        Kind::Route(route, lent) => run(&mut tunnel::route(route, *lent), route_check(route, *lent), &case.calls),
        Kind::End(set_up) => run(&mut proxy::end(set_up), proxy::check(set_up), &case.calls),
    }
}

// ---- its text

fn text_line(letter: u8, text: &[u8]) -> String {
    match (letter, address_text(text)) {
        (b'H', _) => hex(strip(text)),
        (b'U', _) => u8::from(std::str::from_utf8(text).is_ok()).to_string(),
        (_, Some(IpAddr::V4(ip))) => format!("4 {}", hex(&ip.octets())),
        (_, Some(IpAddr::V6(ip))) => format!("6 {}", hex(&ip.octets())),
        (_, None) => "n".into(),
    }
}

impl Entry {
    pub fn text(&self) -> String {
        let numbers = [self.number].into_iter().chain(self.counts.clone()).map(|n| n.to_string());
        numbers.chain(self.text.as_ref().map(|text| hex(text))).collect::<Vec<_>>().join("/")
    }
}

impl Outcome {
    pub fn text(&self) -> String {
        match self {
            Outcome::Waiting => "waiting".into(),
            Outcome::Asked => "asked".into(),
            Outcome::Settled(number) => number.to_string(),
        }
    }
}

impl Line {
    // What the route's opening sent: all that no delivery did.
    fn sent_ahead(&self) -> usize {
        self.sent.len() - self.calls.iter().filter_map(|entry| entry.counts.last()).sum::<usize>()
    }

    pub fn text(&self, of: &Kind) -> String {
        let check = match of {
            Kind::Route(..) => format!("{}/{}", self.check, self.sent_ahead()),
            _ => self.check.to_string(),
        };
        let calls: Vec<String> = self.calls.iter().map(Entry::text).collect();
        let calls = if calls.is_empty() { "-".into() } else { calls.join(",") };
        let destination = match (of, &self.destination) {
            (Kind::End(_), Some(d)) => format!(" {}:{}:{}", d.kind, hex(&d.address), d.port),
            (Kind::End(_), None) => " -".into(),
            _ => String::new(),
        };
        let (sent, rests) = (hex(&self.sent), hex(&self.rests));
        format!("{check} {calls} {sent} {rests} {} {}{destination}", self.outcome.text(), self.status)
    }
}

pub fn text(case: &Case) -> String {
    match &case.kind {
        Kind::Text(b'L', text) => line::text(text),
        Kind::Text(letter, text) => text_line(*letter, text),
        Kind::Ending(of, wanted) => ending::text(of, wanted),
        Kind::Captures(of, captures) => capture::text(of, captures),
        kind => line(case).text(kind),
    }
}

// What `replay` must print for this input.
pub fn answers(mut input: &[u8]) -> String {
    let mut lines = String::new();
    while !input.is_empty() {
        let held = take(&mut input, 2).and_then(|n| take(&mut input, usize::from(u16::from_be_bytes([n[0], n[1]]))));
        let case = held.and_then(Case::read);
        lines += &(case.map_or("bad".into(), |case| text(&case)) + "\n");
        if held.is_none() {
            break;
        }
    }
    lines
}
