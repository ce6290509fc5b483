//! Routes of the kept list: every number that a route can meet, both versions mixed, cuts across the border of two
//! proxies.
use super::session::{IPV6_REPLY, OPENS4, SHORT_NAME, good as good_session};
use super::{Kept, hexes};
use crate::case::*;
use crate::draft::*;
use crate::generate;
use crate::model::{openings, route_asks};

// Random routes fill the list up to so many, as far as they are small.
const CASES: usize = 660;
const SMALL: usize = 400;

// ---- routes written short

// A proxy a word: its version, `c` with credentials, `o` optimistically. Hosts p1, p2 and so on, output as is asked.
pub fn chain(text: &str) -> Draft<Route> {
    let proxies: Vec<Opening> = text.split_whitespace().zip(1..).map(|(word, n)| proxy(word, n)).collect();
    let lent = (1024 * proxies.len()).min(9216) as u16;
    Draft::new(Route { flags: PORT, port: 443, host: b"a.example".to_vec(), proxies }).lent(lent)
}

pub fn many(n: usize) -> Draft<Route> {
    chain(&"5 ".repeat(n))
}

fn proxy(word: &str, n: u16) -> Opening {
    let flag = |letter, flag| if word.contains(letter) { flag } else { 0 };
    let (user, password) = if word.contains('c') { (b"u".to_vec(), b"pw".to_vec()) } else { (vec![], vec![]) };
    Opening {
        version: if word.starts_with('4') { 4 } else { 5 },
        flags: PORT | flag('c', CREDENTIALS) | flag('o', OPTIMISTIC),
        port: 1080 + n,
        host: format!("p{n}").into_bytes(),
        user,
        password,
        records: vec![],
    }
}

impl Draft<Route> {
    // Of the destination.
    fn host(&self, host: &[u8]) -> Self {
        self.asking(self.proxies.len(), host)
    }

    // What the proxy of this number, from 1, is asked for; that of 0 is the first proxy's own host.
    fn asking(&self, number: usize, host: &[u8]) -> Self {
        self.but(|other| match other.proxies.get_mut(number) {
            Some(next) => next.host = host.to_vec(),
            None => other.host = host.to_vec(),
        })
    }

    // As above: without the port that goes with that host.
    fn portless(&self, number: usize) -> Self {
        self.but(|other| match other.proxies.get_mut(number) {
            Some(next) => next.flags &= !PORT,
            None => other.flags &= !PORT,
        })
    }

    // Of the proxy of this number, from 1.
    fn credentials(&self, number: usize, user: usize, password: usize) -> Self {
        self.but(|other| {
            let proxy = &mut other.proxies[number - 1];
            (proxy.user, proxy.password) = (vec![b'u'; user], vec![b'p'; password]);
            proxy.flags |= CREDENTIALS;
        })
    }

    pub fn served(&self) -> Self {
        self.piece(&good(self).concat())
    }
}

// For each proxy the replies that open it.
pub fn good(route: &Route) -> Vec<Vec<u8>> {
    openings(route).iter().map(good_session).collect()
}

fn asked(route: &Route) -> u16 {
    route_asks(route) as u16
}

// Split by bars.
const CHAINS: &str = "5|4|5c|5co|5 4|4 5|5c 5co|4 5o|5co 4|5 4 5c|4 5co 4|5o 5c 5|5 4 5c 4 5o 5co 4 5|4 4 4 4 4 4 4 4|\
    5co 5c 5o 5 5co 5c 5o 5co";

// ---- replies that open

// Nothing yet; all at once with more behind; each proxy's replies in a piece of their own; byte by byte.
fn whole(list: &mut Kept) {
    for text in CHAINS.split('|') {
        let route = chain(text);
        let replies = good(&route);
        let stream = replies.concat();
        list.all([route.flag(END | ATTEMPTS), route.piece(&stream).flag(ATTEMPTS)]);
        list.add(route.piece(&[&stream, &b"SDF"[..]].concat()).piece(b"more").flag(END));
        let route = route.flag(ATTEMPTS);
        list.all([route.pieces(replies.iter().map(|reply| &reply[..])), route.each_byte(&stream).piece(b"SDF")]);
        list.add(route.piece(&stream[..stream.len() - 1]));
    }
}

// Two proxies, cut in two at every byte.
fn cuts(list: &mut Kept) {
    for text in ["5 4", "4 5", "5c 5co"] {
        let route = chain(text).flag(ATTEMPTS);
        list.all(route.halves(&[&good(&route).concat()[..], b"S"].concat()));
    }
}

// The border of two proxies: a piece that ends there, one around it, empty ones, too little output, the end of stream.
fn borders(list: &mut Kept) {
    for text in ["5 5", "5co 4", "4 4", "4 5c 4", "4 5co", "5 5o 5o"] {
        let route = chain(text).flag(ATTEMPTS);
        let (asked, stream) = (asked(&route), good(&route).concat());
        let border = good(&route)[0].len();
        let (before, later) = stream.split_at(border);
        let first = route.piece(before);
        list.all([first.clone(), first.flag(END), first.piece(b"").piece(later)]);
        list.add(first.piece_lent(asked - 1, later).flag(END));
        list.add(route.piece_lent(asked - 1, before).piece_lent(asked, before).piece_lent(asked, later));
        for n in 1..=3 {
            let first = route.piece(&stream[..border + n]);
            list.add(if n == 2 { first.flag(END) } else { first });
            let (start, end) = (&stream[..border - n], &stream[border + n..]);
            list.add(route.piece(start).piece(&stream[border - n..border + n]).piece(end));
        }
    }
    // the end of the first, all of the second and the start of the third in one piece
    for text in ["5 4 5", "4 5c 4", "5co 5co 5co"] {
        let route = chain(text).flag(ATTEMPTS);
        let (replies, stream) = (good(&route), good(&route).concat());
        let (first, last) = (replies[0].len(), stream.len() - replies[2].len());
        for n in [1, 2, 7] {
            let (start, end) = (first - n, last + n);
            list.add(route.piece(&stream[..start]).piece(&stream[start..end]).piece(&stream[end..]));
        }
    }
}

// The longest name at a border, cut so that all of its reply but a byte is held; long pieces behind.
fn long_replies(list: &mut Kept) {
    let name = [&[5, 0, 5, 0, 0, 3, 255], &[b'n'; 255][..], &[0, 80]].concat();
    let route = chain("5 4 5").flag(ATTEMPTS);
    let stream = [&name[..], &OPENS4, &name, &[0xAB; 600]].concat();
    list.all([262, 263, 264, 265, 272, 536].map(|n| route.piece(&stream[..n]).piece(&stream[n..])));
    list.all([route.piece(&stream), route.each_byte(&stream[..538]), route.pieces(stream.chunks(100))]);
    list.add(chain("4 4").piece(&[&OPENS4[..], &OPENS4, &[7; 3000]].concat()));
    list.add(chain("4").piece(&[&OPENS4[..], &OPENS4, &[4; 2000]].concat()));
    let six = [&[5, 0], &IPV6_REPLY[..]].concat();
    list.add(chain("5 5").flag(ATTEMPTS).piece(&[&six[..], &six, b"S"].concat()));
    list.add(chain("5 5").flag(ATTEMPTS).each_byte(&[&six[..], &six].concat()));
}

// ---- replies that fail

// What the last of these openings may be answered, beside success: 10, 12, 13, 14, and 15 with its statuses.
fn failing(text: &str) -> Vec<Vec<u8>> {
    let refused = (1..=8).map(|status| [&[5, 0, 5, status, 0], &SHORT_NAME[3..]].concat());
    match text {
        "4" => hexes("005B 005C 005D 0059 005E 045A").iter().map(|start| [start, &OPENS4[2..]].concat()).collect(),
        "5" => {
            let garbled = "0500050900 0500050001 05000500000200 05000500000300 05000500000301FF0050";
            hexes("05FF 0502 0501 0400").into_iter().chain(refused).chain(hexes(garbled)).collect()
        }
        _ => hexes("0500 05FF 05020107 05020000 050201000505000301780050"),
    }
}

// At the first proxy, a middle one and the last, the next one's replies behind; the end of stream then.
fn failures(list: &mut Kept) {
    let ahead = ["", "4", "5c", "4 5", "5 5co 4 4 5o 5 4"];
    for last in ["5", "4", "5c", "5co"] {
        for (i, reply) in failing(last).iter().enumerate() {
            // each reply behind two of the ways, all of them behind some
            for j in [i % ahead.len(), (i + 2) % ahead.len()] {
                let text = format!("{} {last}", ahead[j]);
                let opened = good(&chain(&text));
                let opened = opened[..opened.len() - 1].concat();
                // of more proxies where there is room
                let route = if j < 4 { chain(&format!("{text} 5")) } else { chain(&text) };
                let stream = [&opened[..], reply, b"\x05\x00SDF"].concat();
                let route = route.flag(ATTEMPTS);
                list.add(match i % 3 {
                    0 => route.piece(&stream).flag(END),
                    1 => route.each_byte(&stream).flag(END),
                    _ => route.piece(&opened).piece(&stream[opened.len()..]).piece(b"more"),
                });
            }
        }
    }
    // 9 behind every reply of a route, and inside one
    let route = chain("5c 4 5o").flag(END | ATTEMPTS);
    let stream = good(&route).concat();
    list.all([0, 1, 2, 4, 11, 12, 13, 19, 20, 21, 22, 29, 30].map(|n| route.piece(&stream[..n])));
}

// Open, failed, refused: every delivery is 16 then, and its piece is a rest if it lends enough.
fn settled(list: &mut Kept) {
    let failed = [4; 8];
    for text in ["5", "4 5c", "5 4 5o", "4 4 4 4 4 4 4 4"] {
        let route = chain(text);
        let asked = asked(&route);
        let late = |route: Draft<Route>| {
            route.piece(b"").piece_lent(asked, b"xy").piece_lent(asked - 1, b"lost").piece_lent(0, b"").flag(END)
        };
        list.add(late(route.served()));
        let all = [route.piece(&failed), route.lent(asked - 1), route.host(b"a b")];
        list.all(all.map(|route| late(route.flag(ATTEMPTS))));
        list.add(late(route));
    }
}

// ---- what an opening checks, what it leaves unchecked, and what it takes at its limits

// 21 for none and for more than eight, whatever output is lent. Rests go by 1,024 bytes for each proxy: with none always,
// with nine at the most that counts, with ten never.
fn numbers(list: &mut Kept) {
    for n in [0, 9, 10, 255] {
        for lent in [0, 9216, 65535] {
            let route = many(n).lent(lent).flag(ATTEMPTS);
            let fed = route.piece_lent(0, b"a").piece_lent(9215, b"b").piece_lent(9216, b"c").piece_lent(65535, b"d");
            list.all([route, fed.flag(END)]);
        }
    }
    for n in [1, 8] {
        list.all([many(n).flag(ATTEMPTS), many(n).served()]);
    }
}

// 1 by 1,024 bytes for each proxy, at the opening and at a delivery; above 9216 bytes is as much as that.
fn lents(list: &mut Kept) {
    for text in ["5", "4", "4 5c", "5 4 5", "4 5 4 5co 4 5 4 5"] {
        let route = chain(text);
        let (asked, replies) = (asked(&route), good(&route).concat());
        for lent in [0, asked - 1, asked, 9217, 65535] {
            let served = route.lent(lent).piece_lent(asked, &replies).piece_lent(asked - 1, b"lost");
            list.add(if lent < asked { served.flag(END) } else { served.flag(ATTEMPTS) });
        }
        let twice = |lent| route.piece_lent(lent, &replies).piece_lent(asked, &replies).flag(END | ATTEMPTS);
        list.all([778, asked - 1, 65535].map(twice));
        list.add(route.piece_lent(asked - 1, b"").piece_lent(asked, &replies[..3]).flag(END));
        // not less once some of its proxies are open
        let tried = route.piece_lent(asked, &replies[..replies.len() - 1]).piece_lent(asked - 1, &replies);
        list.add(tried.piece_lent(asked, &replies[replies.len() - 1..]).flag(ATTEMPTS));
    }
}

// A route in which the proxy of this number, from 1, is asked for what it refuses with this.
pub fn refused(route: &Draft<Route>, number: usize, refusal: u8) -> Draft<Route> {
    match refusal {
        2 => route.asking(number, b"[]"),
        3 => route.asking(number, b"a b"),
        4 => route.portless(number),
        5 => route.credentials(number, 256, 0),
        6 => route.asking(number, &[b'n'; 1015]),
        7 => route.asking(number, b"[::1]"),
        _ => route.asking(number, b"0.0.0.5"),
    }
}

// Each number at several places.
fn each(list: &mut Kept) {
    for (version, numbers) in [("5 ", &[2, 3, 4, 5, 6][..]), ("4 ", &[2, 3, 4, 6, 7, 23])] {
        for (proxies, places) in [(1, &[1][..]), (2, &[1, 2]), (3, &[2]), (8, &[8])] {
            let route = chain(&version.repeat(proxies));
            let fed = route.piece_lent(route.lent, b"rest").piece_lent(route.lent - 1, b"lost").flag(END);
            for place in places {
                list.all(numbers.iter().map(|number| refused(&fed, *place, *number)));
            }
        }
    }
}

// 21 before 1, 1 before the openings, the first proxy's number before the second's, then as in one opening.
fn order(list: &mut Kept) {
    for n in [0, 9] {
        list.all([many(n).lent(0).host(b""), many(n).host(b"").portless(n)]);
    }
    for text in ["5", "4 5", "5 4 5"] {
        let route = chain(text).lent(chain(text).lent - 1).flag(END);
        list.all([2, 3, 4, 6].map(|number| refused(&route, 1, number)));
    }
    let twice = |text: &str, [one, other]: [usize; 2], (first, second): (u8, u8)| {
        refused(&refused(&chain(text), one, first), other, second)
    };
    for pair in [(23, 2), (7, 3), (6, 2), (6, 4), (4, 2), (4, 3), (3, 2), (2, 23), (2, 3)] {
        list.all([twice("4 4", [1, 2], pair), twice("5c 4 5 4", [2, 4], pair)]);
    }
    list.all([(5, 2), (5, 3), (6, 5), (6, 2), (4, 5), (2, 5)].map(|pair| twice("5 5", [1, 2], pair)));
    // two at the same proxy
    list.all([(2, 4), (3, 4), (4, 5), (5, 6), (3, 5), (2, 5), (4, 6)].map(|pair| twice("4 5 5", [2, 2], pair)));
    list.all([(4, 7), (4, 23), (3, 4), (2, 4), (4, 6)].map(|pair| twice("5 4 5", [2, 2], pair)));
}

// The first proxy's own host and port; credentials and the option at a v4 proxy; flags that are none.
fn not_looked_at(list: &mut Kept) {
    for own in [&b""[..], b"[]", b"a b", b"\x00\xFF", b"::1", b"0.0.0.5", &[b'n'; 1015]] {
        list.all(["5", "4 5"].map(|text| chain(text).asking(0, own).portless(0).served().flag(ATTEMPTS)));
    }
    list.add(chain("5 5").portless(0).served());
    for text in ["4", "4 4", "5 4", "4 5 4"] {
        let last = text.split(' ').count();
        let long = |user, password| chain(text).credentials(last, user, password).served();
        list.all([long(256, 256), long(1, 300).flag(ATTEMPTS), chain(&text.replace('4', "4co")).served().flag(END)]);
    }
    let mut odd = chain("5 4 5").flag(!(END | ATTEMPTS));
    odd.proxies.iter_mut().for_each(|proxy| proxy.flags |= !(CREDENTIALS | OPTIMISTIC | PORT));
    list.all([odd.clone(), odd.served()]);
}

// Credentials, names and addresses at their limits, asked of the first proxy and of the last.
fn limits(list: &mut Kept) {
    for (user, password) in [(0, 0), (0, 1), (1, 0), (255, 0), (0, 255), (255, 255), (256, 0), (0, 256)] {
        let with = |(text, number)| chain(text).credentials(number, user, password).served();
        list.all([("5 4", 1), ("4 5o", 2)].map(with));
    }
    for n in [1, 254, 255, 256, 1014, 1015] {
        let name = vec![b'n'; n];
        for text in ["5 4", "4 5"] {
            list.all([1, 2].map(|number| chain(text).asking(number, &name).served()));
        }
        list.add(chain("4 5").asking(1, &[b"[", &name[..], b"]"].concat()).served());
    }
    for host in ["[2001:db8::1]", "2001:db8::1", "[", "[[]]", "192.0.2.7", "[192.0.2.7]", "01.2.3.4", "0.0.0.0"] {
        for text in ["5 4", "4 5c"] {
            list.all([1, 2].map(|number| chain(text).asking(number, host.as_bytes()).served()));
        }
    }
    for port in [0, 80, 65535] {
        let all = |r: &mut Draft<Route>| (r.port, r.proxies[1].port, r.proxies[2].port) = (port, port, port);
        list.add(chain("5 4 5").but(all).served());
    }
}

// As much as a call can send: eight of the longest openings, all but the first in one delivery.
fn longest(list: &mut Kept) {
    for word in ["5c ", "5co ", "4 "] {
        let mut route = chain(&word.repeat(8));
        for number in 1..=8 {
            let v4 = word == "4 ";
            route = route.asking(number, &vec![b'a' + number as u8; if v4 { 1014 } else { 255 }]);
            route = if v4 { route } else { route.credentials(number, 255, 255) };
        }
        let (asked, replies) = (asked(&route), good(&route).concat());
        list.add(route.piece_lent(asked, &replies).flag(ATTEMPTS));
        list.add(replies.chunks(7).fold(route, |route, piece| route.piece_lent(asked, piece)).flag(ATTEMPTS));
    }
}

// ---- the list

pub fn add(list: &mut Kept) {
    let first = list.cases.len();
    list.parts(&[whole, cuts, borders, long_replies, failures, settled, numbers, lents, each, order, not_looked_at]);
    list.parts(&[limits, longest]);
    let fill = CASES.saturating_sub(list.cases.len() - first);
    // beside the kind and the calls' letters
    let small = |case: &Case| case.bytes().len() - 1 - case.calls.len() < SMALL;
    list.random(fill, |r| generate::in_order(b'R', r, 0), small);
}
