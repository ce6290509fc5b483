//! Streams for endings, request F-12, in the kept list: every number, wanted or refused with, over both versions; the
//! proxies at which routes end; buffers around the stream's length. Behind them frames that hold no such case.
use super::session::unprepared;
use super::{Kept, orders, route};
use crate::case::*;
use crate::draft::*;
use crate::model::ending::{row, stream};

// An outcome and a status: one of each number that a stream leads to, and a status of each version.
const MET: [(u8, u8); 9] = [(0, 0), (9, 0), (10, 0), (12, 0), (13, 0), (14, 0), (15, 1), (15, 8), (15, 91)];

fn case(of: &Row, (number, status): (u8, u8), lent: u16) -> Case {
    Case { kind: Kind::Ending(of.clone(), Wanted { number, status, lent }), calls: vec![] }
}

// A proxy as `route::chain` has it, asked for a.example.
fn session(word: &str) -> Row {
    let proxy = route::chain(word).of.proxies.remove(0);
    Row::Session(Opening { host: b"a.example".to_vec(), port: 443, ..proxy })
}

fn chain(text: &str, at: u8) -> Row {
    Row::Route(route::chain(text).of, at)
}

fn sessions(list: &mut Kept) {
    for word in ["5", "5c", "4"] {
        let numbers = (0..=27).chain([255]).map(|number| (number, 0));
        let statuses = (1..=9).chain(89..=94).chain([255]).map(|status| (15, status));
        let none = [(0, 1), (0, 90), (9, 1), (10, 8), (12, 255), (13, 2), (14, 1)];
        numbers.chain(statuses).chain(none).for_each(|wanted| list.put(case(&session(word), wanted, 64)));
    }
    for word in ["5o", "5co", "4co"] {
        MET.iter().for_each(|wanted| list.put(case(&session(word), *wanted, 64)));
    }
}

// Nothing, one byte short, just enough, one more, and as much as can be said. None is ahead of 27.
fn lents(list: &mut Kept) {
    let routes = [("5c 4", 2), ("4 5o 5c", 2), ("4 5co 4 5 5c 4 4 5", 8)].map(|(text, at)| chain(text, at));
    for of in ["5", "5c", "4"].map(session).into_iter().chain(routes) {
        for (number, status) in [(0, 0), (9, 0), (10, 0), (15, 2), (14, 0)] {
            let found = row(&of).ok().and_then(|(row, at)| stream(&row, (at, number, status)));
            let n = found.map_or(0, |stream| stream.len() as u16);
            [0, n.max(1) - 1, n, n + 1].iter().for_each(|lent| list.put(case(&of, (number, status), *lent)));
        }
        list.put(case(&of, (10, 0), 65535));
    }
}

// At every proxy, at none and behind the last.
fn proxies(list: &mut Kept) {
    for (text, places) in [
        ("5", &[0, 1, 2][..]),
        ("4o", &[1, 255]),
        ("5c 4", &[0, 1, 2, 3]),
        ("4 5co", &[2]),
        ("5o 5c 4", &[2, 3]),
        ("5co 4 5c 4 5 5o 4 5", &[3, 8, 9]),
    ] {
        for at in places {
            MET.iter().for_each(|wanted| list.put(case(&chain(text, *at), *wanted, 200)));
        }
    }
}

// Whatever is wanted and lent; in a route ahead of the proxy to end at, there, behind it, and where that is lacking.
fn refused(list: &mut Kept) {
    for opening in unprepared() {
        let of = Row::Session(opening.of);
        [(0, 0), (14, 0)].iter().for_each(|wanted| list.put(case(&of, *wanted, 0)));
    }
    for (n, at) in [(0, 0), (0, 1), (9, 0), (9, 1), (9, 9), (10, 10)] {
        list.put(case(&Row::Route(route::many(n).of, at), (0, 0), 64));
    }
    for (text, numbers) in [("5 5 5", &[2, 3, 4, 5, 6][..]), ("4 4 4", &[2, 3, 4, 6, 7, 23])] {
        for number in numbers {
            let of = route::refused(&route::chain(text), 2, *number).of;
            [3, 2, 1, 9].iter().for_each(|at| list.put(case(&Row::Route(of.clone(), *at), (10, 0), 0)));
        }
    }
    let twice = route::refused(&route::refused(&route::chain("5 4 5"), 1, 3), 2, 2).of;
    list.put(case(&Row::Route(twice, 3), (0, 0), 64));
}

pub fn add(list: &mut Kept) {
    list.parts(&[sessions, lents, proxies, refused]);
}

// Each start of a case, bytes left over, other letters, versions and families; and a good frame.
pub fn bad() -> Vec<Vec<u8>> {
    let opening = Opening { records: vec![(4, [2; 16])], ..base(5).of };
    let mut all = vec![];
    for (of, family) in [(Row::Session(opening), 21), (chain("5c 4", 2), 0)] {
        let bytes = case(&of, (15, 1), 64).bytes();
        all.extend((1..bytes.len()).map(|n| bytes[..n].to_vec()));
        all.extend([&[0][..], &[255], b"e", &[0, 0], &bytes].map(|more| [&bytes, more].concat()));
        let changed = |place: usize, byte: u8| [&bytes[..place], &[byte], &bytes[place + 1..]].concat();
        all.extend([0, 4, 5, b'A', b'C', b'E', b'L', b'P', b's', b'r', 255].map(|letter| changed(1, letter)));
        all.extend([b'S', b'R', b'e', b'P'].map(|kind| changed(0, kind)));
        if family > 0 {
            let at = bytes.len() - family;
            all.extend([changed(2, 3), changed(2, 6), changed(at, 5), changed(at - 1, 0), changed(at - 1, 9)]);
        }
    }
    all.push(orders::good().bytes());
    all
}
