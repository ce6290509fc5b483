//! Random routes: most of them get far, some are refused by each of the checks.
use super::session::{bound_replies, credential, host, replies};
use super::{cuts, delivered, stream};
use crate::case::*;
use crate::draft::*;
use crate::draw::Random;
use crate::model::{openings, prepare};

const PROXIES: [usize; 15] = [1, 1, 2, 2, 2, 2, 3, 3, 3, 4, 5, 6, 7, 8, 8];
const TOO_MANY: [usize; 6] = [0, 0, 9, 9, 10, 255];

pub fn case(r: &mut Random) -> Draft<Route> {
    let mut route = opening(r);
    let replies = proxies_send(r, &route);
    arrives(r, &mut route, replies);
    route
}

// ---- what is asked for

pub fn opening(r: &mut Random) -> Draft<Route> {
    let n = if r.once_in(40) { r.one_of(&TOO_MANY) } else { r.one_of(&PROXIES) };
    let mut route = Draft::new(Route { flags: 0, port: port(r), host: vec![], proxies: vec![] });
    for flag in [END, ATTEMPTS] {
        route.last |= if r.once_in(2) { flag } else { 0 };
    }
    let few = if n > 10 { 1 } else { 40 };
    for _ in 0..n {
        let version = if r.once_in(3) { 4 } else { 5 };
        let [user, password] = [(); 2].map(|()| short_credential(r, few));
        let (flags, port) = (flags(r), port(r));
        route.proxies.push(Opening { version, flags, port, host: vec![], user, password, records: vec![] });
    }
    // a defect or two, now and then
    let damaged = r.once_in(5);
    for i in 0..=n {
        let defect = if damaged && r.once_in(n + 1) { r.below(8) } else { 8 };
        // of the first proxy's own anything goes
        let any = (3..8).contains(&defect) || i == 0 && r.once_in(2);
        let text = match defect {
            _ if n > 10 => r.text(1, b"ab"),
            0 => std::net::Ipv4Addr::from(r.near_zero()).to_string().into_bytes(),
            _ => any_host(r, &route, i, any),
        };
        let given = if defect == 1 || i == 0 && r.once_in(4) { 0 } else { PORT };
        let Route { flags, host, proxies, .. } = &mut route.of;
        let (flags, place) = proxies.get_mut(i).map_or((flags, host), |proxy| (&mut proxy.flags, &mut proxy.host));
        *flags |= given;
        *place = text;
        if defect == 2 && i < n {
            (route.proxies[i].user, route.proxies[i].password) = (credential(r), vec![b'p'; 256]);
        }
    }
    let (enough, short) = lents(n);
    route.lent = if r.once_in(24) { r.one_of(&short) } else { r.one_of(&enough) };
    route
}

fn flags(r: &mut Random) -> u8 {
    [CREDENTIALS, OPTIMISTIC].into_iter().filter(|_| r.once_in(2)).sum()
}

fn port(r: &mut Random) -> u16 {
    r.one_of(&[0, 1, 80, 255, 256, 443, 1080, 65535])
}

// What an opening takes, mostly short.
fn short_credential(r: &mut Random, most: usize) -> Vec<u8> {
    let text = credential(r);
    let n = if r.once_in(4) { 255 } else { most };
    text[..text.len().min(n)].to_vec()
}

// The host at this place, the destination's behind the proxies': anything, or what the proxy before can be asked for.
fn any_host(r: &mut Random, route: &Route, place: usize, any: bool) -> Vec<u8> {
    let version = if place == 0 { 5 } else { route.proxies[place - 1].version };
    loop {
        let text = host(r, version);
        let asked = Opening { host: text.clone(), ..base(version).of };
        if any || prepare(&asked) == 0 {
            return text;
        }
    }
}

// Output lent, enough and too little, for so many proxies; what is cut at the most counts as that.
fn lents(n: usize) -> (Vec<u16>, Vec<u16>) {
    let asked = (1024 * n).min(9216) as u16;
    let enough = [asked, asked, asked, asked + 1, asked.max(9215), 9216, 9217, 65535].to_vec();
    let short = [0, 1, 778, 1023, asked.max(1) - 1, asked.max(1) - 1, asked.max(1024) - 1024];
    (enough, short.into_iter().map(|lent| lent.min(asked.max(1) - 1)).collect())
}

// ---- what the proxies send

// Up to one of them their replies open; what it sends may be anything.
fn proxies_send(r: &mut Random, route: &Route) -> Vec<Vec<u8>> {
    let n = route.proxies.len();
    let fails = if r.once_in(2) { n } else { r.below(n + 1) };
    let openings = openings(route);
    openings.iter().zip(0..).map(|(o, i)| if i == fails { replies(r, o) } else { bound_replies(r, o, false) }).collect()
}

// ---- how it arrives

fn arrives(r: &mut Random, route: &mut Draft<Route>, replies: Vec<Vec<u8>>) {
    let (enough, short) = lents(route.proxies.len());
    let noisy = r.once_in(4);
    let pieces = if r.once_in(3) {
        at_borders(r, replies)
    } else {
        let stream = stream(r, replies.concat());
        cuts(r, stream)
    };
    route.calls = delivered(r, (&enough, &short), noisy, pieces);
}

// Cut where one proxy's replies end, or a few bytes beside.
fn at_borders(r: &mut Random, replies: Vec<Vec<u8>>) -> Vec<Vec<u8>> {
    let behind = r.some_bytes(8);
    let stream = [replies.concat(), behind].concat();
    let (mut pieces, mut from, mut border) = (vec![], 0, 0);
    for reply in replies {
        border += reply.len();
        let to = (border + r.one_of(&[0, 0, 0, 1, 2, 3, 8])).saturating_sub(r.one_of(&[0, 0, 0, 0, 1, 2, 7]));
        if to > from && to < stream.len() && !r.once_in(4) {
            pieces.push(stream[from..to].to_vec());
            from = to;
        }
    }
    pieces.push(stream[from..].to_vec());
    pieces
}
