//! The text of a bound address against the standard library's `Display` of the same address and port: the model's, and
//! `replay`'s through whole sessions. `Display` writes some IPv6 addresses with a dotted tail. These are set aside: of
//! them the text must have no dot, and the standard library must read it back.
use crate::case::Case;
use crate::compare::{Figures, ask};
use crate::draft::*;
use crate::draw::Random;
use crate::model;
use std::net::{IpAddr, SocketAddr};

const BATCH: u64 = 20000;
// One IPv4 address to so many of IPv6, over v5 and v4 in turn.
const SIXES: u64 = 8;
const SHOWN: usize = 10;

// A session that opens with this address, its replies in one piece.
fn case(version: u8, bound: SocketAddr) -> Case {
    let port = bound.port().to_be_bytes();
    let reply = match (version, bound.ip()) {
        (4, IpAddr::V4(ip)) => [&[0, 90], &port[..], &ip.octets()].concat(),
        (_, IpAddr::V4(ip)) => [&[5, 0, 5, 0, 0, 1], &ip.octets()[..], &port].concat(),
        (_, IpAddr::V6(ip)) => [&[5, 0, 5, 0, 0, 4], &ip.octets()[..], &port].concat(),
    };
    let mut case = base(version).lent(1024).piece_lent(1024, &reply).flag(TEXT);
    (case.host, case.text_lent) = (b"a".to_vec(), 47);
    case.case()
}

fn draw(seed: u64, number: u64) -> (Case, SocketAddr) {
    let mut r = Random::new(seed, number);
    let (version, ip) = match number % (2 * (SIXES + 1)) {
        0 => (5, IpAddr::from(r.four())),
        1 => (4, IpAddr::from(r.four())),
        _ => (5, IpAddr::from(r.six())),
    };
    let bound = SocketAddr::new(ip, r.port());
    (case(version, bound), bound)
}

// The address's kind, and whether `Display` writes it with a dotted tail.
fn kind(bound: SocketAddr) -> (&'static str, bool) {
    let IpAddr::V6(ip) = bound.ip() else {
        return ("IPv4", false);
    };
    let text = ip.to_string();
    match (ip.segments(), text.contains('.')) {
        ([0, 0, 0, 0, 0, 0xFFFF, ..], true) => ("IPv4-mapped, with a dotted tail: set aside and read back", true),
        ([0, 0, 0, 0, 0, 0xFFFF, ..], false) | (_, true) => panic!("another rule of Display: {text}"),
        ([0, 0, 0, 0, 0, 0, ..], _) => ("IPv4-compatible", false),
        _ if text.contains("::") => ("IPv6, shortened", false),
        _ => ("IPv6, whole", false),
    }
}

// The line's text, if it has one: behind its third call's answer.
fn told(line: &str) -> Option<String> {
    let digits = line.split(' ').nth(1)?.split(',').nth(2)?.strip_prefix("0/")?;
    let byte = |at: usize| u8::from_str_radix(digits.get(at..at + 2)?, 16).ok();
    String::from_utf8((0..digits.len()).step_by(2).map(byte).collect::<Option<_>>()?).ok()
}

// What the text must be. Where `Display` has a dotted tail: the line's own, if it has no dot and is read back.
fn wanted(bound: SocketAddr, aside: bool, line: &str) -> String {
    let reads = |text: &String| !text.contains('.') && text.parse() == Ok(bound);
    if aside { told(line).filter(reads).unwrap_or_default() } else { bound.to_string() }
}

// Answers whether all is the same. With `plant`, one digit is put into the expected text from that number on, once.
pub fn random(seed: u64, count: u64, replay: Option<&str>, mut plant: Option<u64>) -> bool {
    let (mut figures, mut differences) = (Figures::default(), 0);
    let all = count + count.div_ceil(SIXES);
    for start in (0..all).step_by(BATCH as usize) {
        let numbers = start..(start + BATCH).min(all);
        let (cases, drawn): (Vec<_>, Vec<_>) = numbers.clone().map(|n| draw(seed, n)).unzip();
        let modelled: Vec<_> = cases.iter().map(model::text).collect();
        let lines = replay.map_or(modelled.clone(), |replay| ask(replay, &cases));
        for ((((number, case), bound), line), modelled) in numbers.zip(&cases).zip(drawn).zip(&lines).zip(&modelled) {
            let (kind, aside) = kind(bound);
            figures.one("addresses", kind);
            let mut text = wanted(bound, aside, line);
            if !aside && plant.take_if(|n| *n <= number).is_some() {
                text.insert(1, '0');
            }
            let mut told = model::line(case);
            told.calls[2].text = Some(text.into_bytes());
            let wanted = told.text(&case.kind);
            if *line != wanted || *modelled != wanted {
                differences += 1;
                if differences <= SHOWN {
                    println!("difference: address {number}, Display {bound}");
                    println!("  expected {wanted}\n  line     {line}\n  model    {modelled}");
                }
            }
        }
    }
    println!("{}\nseed {seed}: {all} addresses, {differences} differences", figures.text());
    differences == 0
}
