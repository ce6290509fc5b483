//! Random cases of request F-12: a session or a route, an ending that there may be, and a buffer near the stream's
//! length.
use super::{route, session};
use crate::case::*;
use crate::draw::Random;
use crate::model::ending;

// Those that some stream leads to.
const MET: [u8; 9] = [0, 9, 10, 12, 13, 14, 15, 15, 15];
// Beside them: those of no stream, and of checks.
const STATUSES: [u8; 19] = [0, 1, 2, 3, 4, 5, 6, 7, 8, 9, 10, 89, 90, 91, 91, 92, 93, 94, 255];

pub fn case(r: &mut Random) -> Case {
    let of = if r.once_in(2) { Row::Session(opening(r)) } else { routed(r) };
    let any = [r.below(31) as u8, 255][usize::from(r.once_in(31))];
    let number = if r.once_in(5) { any } else { r.one_of(&MET) };
    let status = if number == 15 || r.once_in(8) { r.one_of(&STATUSES) } else { 0 };
    let status = if r.once_in(40) { r.byte() } else { status };
    let mut wanted = Wanted { number, status, lent: 0 };
    wanted.lent = lent(r, &of, &wanted);
    Case { kind: Kind::Ending(of, wanted), calls: vec![] }
}

// Anything, or what is not refused for its host.
fn opening(r: &mut Random) -> Opening {
    let mut opening = session::opening(r).of;
    if r.once_in(2) {
        opening.host = b"a.example".to_vec();
    }
    opening
}

fn routed(r: &mut Random) -> Row {
    let route = route::opening(r).of;
    let n = route.proxies.len() as u8;
    let proxy = match r.below(6) {
        0 => r.one_of(&[0, n, n.wrapping_add(1), n.wrapping_add(2), 9, 255]),
        1 | 2 => n,
        _ => 1 + r.below(usize::from(n.max(1))) as u8,
    };
    Row::Route(route, proxy)
}

fn lent(r: &mut Random, of: &Row, wanted: &Wanted) -> u16 {
    let stream = ending::row(of).ok().and_then(|(row, at)| ending::stream(&row, (at, wanted.number, wanted.status)));
    let n = stream.map_or(8, |stream| stream.len() as u16);
    match r.below(4) {
        0 => r.one_of(&[0, 1, 9215, 9216, 9217, 65535]),
        1 => r.below(usize::from(n) + 2) as u16,
        _ => r.one_of(&[n, n, n.saturating_sub(1), n.saturating_sub(1), n + 1]),
    }
}
