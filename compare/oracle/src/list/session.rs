//! Sessions of the kept list: every outcome, status and boundary.
use super::{Kept, hexes};
use crate::case::*;
use crate::draft::*;
use crate::draw::EDGES;
use crate::{generate, model};
use std::net::{Ipv4Addr, Ipv6Addr};

type Session = Draft<Opening>;

// Those that ask for neither text nor attempts. Random cases fill them up, as far as they are small.
const CASES: usize = 2780;
const SMALL: usize = 500;
// Random cases that ask for the text, behind the others; and those that ask for the attempts, behind these.
const ASKING: usize = 150;
const COUNTING: usize = 60;

pub const OPENS4: [u8; 8] = [0, 90, 0, 80, 10, 0, 0, 1];
pub const IPV4_REPLY: [u8; 10] = [5, 0, 0, 1, 192, 0, 2, 7, 31, 144];
pub const IPV6_REPLY: [u8; 22] = [5, 0, 0, 4, 32, 1, 13, 184, 0, 0, 0, 0, 0, 0, 0, 0, 0, 0, 0, 1, 0, 80];
pub const SHORT_NAME: [u8; 8] = [5, 0, 0, 3, 1, b'x', 0, 80];

impl Session {
    fn host(&self, host: &[u8]) -> Self {
        self.but(|other| other.host = host.to_vec())
    }

    fn credentials(&self, user: usize, password: usize) -> Self {
        self.but(|other| (other.user, other.password) = (vec![b'u'; user], vec![b'p'; password])).flag(CREDENTIALS)
    }

    // Records of these families, each with an address of its own.
    fn records(&self, families: &str) -> Self {
        let address = |n: u8| std::array::from_fn(|i| 16 * n + i as u8);
        let records = families.bytes().zip(1..).map(|(family, n)| (family - b'0', address(n)));
        self.but(|other| other.records = records.collect())
    }

    // One record more, of an address's first bytes; the others are used by family six alone.
    fn record(&self, family: u8, first: [u8; 4]) -> Self {
        self.but(|other| other.records.push((family, std::array::from_fn(|i| *first.get(i).unwrap_or(&1)))))
    }

    fn portless(&self) -> Self {
        self.but(|other| other.flags &= !PORT)
    }

    // Asks for the text, with a buffer of this length.
    fn told(&self, lent: u16) -> Self {
        self.but(|other| other.text_lent = lent).flag(TEXT)
    }
}

// The replies that open a session, for a case without damage.
pub fn good(case: &Opening) -> Vec<u8> {
    match (case.version, case.has(CREDENTIALS)) {
        (4, _) => OPENS4.to_vec(),
        (_, false) => [&[5, 0], &SHORT_NAME[..]].concat(),
        (_, true) => [&[5, 2, 1, 0], &SHORT_NAME[..]].concat(),
    }
}

// A session of each kind.
pub fn base_cases() -> [Session; 5] {
    let with = base(5).credentials(1, 2);
    [base(5), base(5).flag(OPTIMISTIC), with.clone(), with.flag(OPTIMISTIC), base(4)]
}

// The output that its start and its deliveries ask.
fn asked(case: &Opening) -> (u16, u16) {
    (model::start_asks(case) as u16, model::delivery_asks(case) as u16)
}

fn served(case: Session) -> Session {
    case.piece(&good(&case))
}

// Named h, and served with these replies.
fn replied(version: u8, replies: &[u8]) -> Session {
    base(version).host(b"h").piece(replies)
}

// ---- openings

// Each check alone and every set of them together, so that their order shows; the start's output enough, one byte too
// short, and none.
fn refusals(list: &mut Kept) {
    let hosts: [&[u8]; 7] = [b"a", b"", b"[]", b"a b", b"::1", b"0.0.0.1", &[b'n'; 1015]];
    for version in [5, 4] {
        let (start, delivery) = asked(&base(version));
        for host in hosts {
            for rest in 0..24 {
                let last = if rest % 3 == 0 { END } else { 0 };
                let mut case = base(version).host(host).lent([start, start - 1, 0][rest / 8]).flag(last);
                if rest & 1 != 0 {
                    case = case.portless();
                }
                if rest & 2 != 0 {
                    case = if version == 5 { case.credentials(0, 256) } else { case.record(4, [0, 0, 0, 1]) };
                }
                if rest & 4 != 0 {
                    case = case.flag(LOCAL_LOOKUP);
                }
                list.add(case.piece_lent(delivery, &[5, 0]).piece_lent(delivery - 1, b"lost"));
            }
        }
    }
}

// A start that lends too little: what was prepared waits, whatever is delivered, and is not ended.
fn not_started(list: &mut Kept) {
    let cases = [
        base(5),
        base(5).credentials(1, 2),
        base(5).credentials(255, 255).flag(OPTIMISTIC),
        base(5).flag(LOCAL_LOOKUP).records("64"),
        base(4),
        base(4).host(b"1.2.3.4"),
    ];
    for case in cases {
        let (start, delivery) = asked(&case);
        let replies = good(&case);
        for lent in [0, 262, start - 1] {
            for flags in [0, END] {
                let case = case.lent(lent).flag(flags);
                list.add(case.clone());
                list.add(case.piece_lent(delivery, b"").piece_lent(delivery - 1, b"").piece_lent(0, b""));
                list.add(case.piece_lent(delivery, &replies).piece_lent(delivery - 1, &replies));
                list.add(case.piece_lent(0, b"lost").each_byte(&replies[..3]).piece_lent(delivery, b""));
            }
        }
    }
}

fn outputs(list: &mut Kept) {
    for version in [5, 4] {
        for n in [0, 1, 261, 262, 263, 777, 778, 779, 1023, 1024, 1025, 2047, 2048, 2049, 65535] {
            list.all([served(base(version).lent(n)), served(base(version).lent(n).host(&[b'n'; 1014]))]);
            list.add(served(base(version).lent(n).host(b"1.2.3.4").credentials(123, 123).flag(OPTIMISTIC)));
            let replies = good(&base(version));
            list.add(base(version).piece_lent(n, &replies).piece(&replies).piece_lent(n, b"xy"));
        }
    }
}

fn host_bytes(list: &mut Kept) {
    list.all((0..=255).map(|b| served(base(5).host(&[b'a', b, b'z']))));
    for b in [0, 0x20, 0x21, 0x7E, 0x7F, 0x80, 0xFF] {
        for host in [&[b][..], &[b, b'a'], &[b'a', b], &[b'[', b, b']'], &[b'[', b'a', b]] {
            list.all([base(4).host(host), served(base(5).host(host))]);
        }
    }
}

const HOSTS: &str = "
    [ ] [] ][ [[ ]] [[] []] [[]] [a a] [a] [[a]] a[] []a [2001:db8::1] 2001:db8::1 [::1 ::1] [1.2.3.4] 1.2.3.4 0.0.0.0
    0.0.0.5 255.255.255.255 192.0.2.7 01.2.3.4 1.2.3.04 256.1.1.1 1.2.3 1.2.3.4.5 1.2.3.4. .1.2.3.4 1..3.4 1.2.3.4::
    :: : ::: ::1 1:: 1:2:3:4:5:6:7:8 1:2:3:4:5:6:7 1:2:3:4:5:6:7:: 1:2:3:4:5:6:7:8:: ::2:3:4:5:6:7:8 ::1:2:3:4:5:6:7:8
    1::2::3 12345:: g:: ::ffff:1.2.3.4 ::1.2.3.4 1:2:3:4:5:6:1.2.3.4 1:2:3:4:5:6:7:1.2.3.4 1:2:3:4:5::1.2.3.4
    1:2:3:4:5:6::1.2.3.4 ::01.2.3.4 ::1.2.3.4:5 fe80::1%1 ABCD:ef01:: 0000:0:00:000:0:0:0:0 00000:: a example.com
    h-1.example. [example.com] 1.2.3.4:80 ::0.0.0.5 hello-world 2001:db8:0:0:1:0:0:1";

fn host_texts(list: &mut Kept) {
    for text in HOSTS.split_whitespace() {
        list.all([base(4).host(text.as_bytes()), served(base(5).host(text.as_bytes()))]);
    }
}

fn name_lengths(list: &mut Kept) {
    for n in [1, 2, 11, 100, 200, 246, 247, 251, 252, 253, 254, 255, 256, 257, 1013, 1014, 1015, 1016, 5000] {
        let name = vec![b'n'; n];
        let bracketed = [b"[", &name[..], b"]"].concat();
        for flags in [0, OPTIMISTIC] {
            list.add(served(base(5).host(&name).flag(flags)));
            list.add(served(base(5).host(&name).flag(flags).credentials(1, 1)));
        }
        list.all([served(base(5).host(&bracketed)), served(base(5).host(&name).flag(LOCAL_LOOKUP).records("4"))]);
        list.all([served(base(4).host(&name)), served(base(4).host(&bracketed))]);
        list.add(served(base(4).host(&name).flag(LOCAL_LOOKUP).records("64")));
    }
}

fn credential_lengths(list: &mut Kept) {
    let lengths = [0, 1, 2, 122, 123, 124, 125, 246, 247, 254, 255, 256, 257];
    for user in lengths {
        for password in [0, 123, 255, 256] {
            list.add(served(base(5).host(b"1.2.3.4").credentials(user, password)));
            list.add(base(5).host(b"1.2.3.4").credentials(password, user).flag(OPTIMISTIC).piece(&[5, 2, 1, 0]));
        }
    }
    // all requests together as long as the original's send buffer, for each kind of destination
    let name = |n| "n".repeat(n);
    let hosts =
        [("1.2.3.4".into(), 246), ("::1".into(), 234), (name(1), 248), (name(200), 49), (name(249), 0), (name(250), 0)];
    for (host, most) in hosts {
        for sum in [most.max(1) - 1, most, most + 1] {
            for user in [0, sum / 2, sum] {
                for flags in [0, OPTIMISTIC] {
                    list.add(served(base(5).host(host.as_bytes()).credentials(user, sum - user).flag(flags)));
                }
            }
        }
    }
    let mut case = base(5).credentials(3, 3);
    (case.user, case.password) = ("\u{E9}\u{20AC}".into(), vec![0, 0x20, 0x7F]);
    list.add(served(case.clone()));
    // not UTF-8: no Rust string, lawful here
    case.user = EDGES.to_vec();
    list.add(served(case));
}

// The longest requests, plainly and all at once, with no more output than is asked.
fn long_requests(list: &mut Kept) {
    for flags in [0, OPTIMISTIC] {
        let asking = |host: &[u8]| base(5).host(host).credentials(255, 255).flag(flags).lent(778);
        let replies = good(&asking(b"a"));
        list.all((252..=255).map(|n| asking(&vec![b'n'; n]).piece_lent(778, &replies)));
        list.all([&b"1.2.3.4"[..], b"::1", b"a"].map(|host| served(asking(host))));
        let most = asking(&[b'n'; 255]);
        list.add(served(most.lent(777)));
        list.add(most.piece_lent(777, &replies).piece_lent(778, &replies).piece_lent(777, b"xy").flag(END));
        list.add(most.each_byte(&replies).piece_lent(778, b"xy"));
        list.all([0, 2, 4, 11].map(|n| most.piece_lent(778, &replies[..n]).flag(END)));
        list.all(
            hexes("05FF 0500 05020000 05020107 0502010005050001000000000000").iter().map(|r| most.piece_lent(778, r)),
        );
    }
}

fn ports(list: &mut Kept) {
    for version in [5, 4] {
        for port in [0, 1, 80, 255, 256, 443, 32768, 65535] {
            let asking = |host| served(base(version).host(host).but(|case| case.port = port));
            list.all([&b"1.2.3.4"[..], b"name", b"::1"].map(asking));
        }
        list.add(served(base(version).portless()));
    }
}

fn lookups(list: &mut Kept) {
    for version in [5, 4] {
        for records in ["", "4", "6", "46", "64", "44", "66", "6644", "66666664", "66666666"] {
            for host in [&b"name"[..], b"1.2.3.4", b"[::1]"] {
                list.all([0, LOCAL_LOOKUP].map(|flags| served(base(version).host(host).flag(flags).records(records))));
            }
        }
    }
}

// Addresses that announce a name over v4, and those beside them: typed, in brackets, looked up.
fn announcing(list: &mut Kept) {
    let other = [192, 0, 2, 7];
    let beside = [[0, 0, 0, 0], [0, 0, 1, 0], [0, 0, 1, 1], [0, 1, 0, 1], [1, 0, 0, 1]];
    for first in [1, 9, 255].map(|x| [0, 0, 0, x]).into_iter().chain(beside) {
        let text = Ipv4Addr::from(first).to_string();
        for version in [4, 5] {
            let typed = base(version).host(text.as_bytes());
            let named = base(version).host(b"name").flag(LOCAL_LOOKUP);
            let bracketed = base(version).host(format!("[{text}]").as_bytes());
            let not_asked = base(version).host(b"name").record(4, first);
            list.all([typed.clone(), typed.flag(LOCAL_LOOKUP).record(4, other), bracketed, not_asked].map(served));
            list.all([named.record(4, first), named.record(6, other).record(4, first)].map(served));
            list.all(
                [(4, first, other), (4, other, first), (6, first, other)]
                    .map(|(family, one, two)| served(named.record(family, one).record(4, two))),
            );
            list.add(served(named.record(6, first)));
        }
    }
}

// ---- replies

fn method_replies(list: &mut Kept) {
    for b in (0..=8).chain(0x7E..=0x81).chain(0xFC..=0xFF) {
        list.add(base(5).piece(&[5, b]));
    }
    let with = base(5).credentials(1, 1);
    for b in [0, 1, 2, 3, 4, 0x7F, 0x80, 0xFE, 0xFF] {
        list.all([with.piece(&[5, b]), with.flag(OPTIMISTIC).piece(&[5, b, 1, 0])]);
        list.all([base(5).flag(OPTIMISTIC).each_byte(&[5, b, 5]), base(5).piece(&[b, 0]), with.piece(&[5, 2, 1, b])]);
        list.all([with.piece(&[5, 2, b, 0]), with.each_byte(&[5, 2, 1, b, 5])]);
    }
}

fn connect_replies(list: &mut Kept) {
    let addresses: [&[u8]; 3] = [&[1, 192, 0, 2, 7, 31, 144], &IPV6_REPLY[3..], &SHORT_NAME[3..]];
    for status in [0, 1, 2, 3, 4, 5, 6, 7, 8, 9, 10, 127, 128, 255] {
        for address in addresses {
            let stream = [&[5, 0, 5, status, 0], address, b"on"].concat();
            list.all([base(5).piece(&stream), base(5).each_byte(&stream)]);
            list.add(base(5).piece(&stream[..stream.len() - 3]).flag(END));
        }
    }
    for b in [0, 1, 2, 3, 4, 5, 6, 8, 9, 0x7F, 0x80, 0xFF] {
        for n in 3..=5 {
            let starts = [[5, 0, b, 0, 0, 1, 0], [5, 0, 5, 0, b, 1, 0], [5, 0, 5, 0, 0, b, 0]];
            list.all(starts.map(|start| base(5).piece(&start[..2 + n])));
        }
        list.add(base(5).piece(&[5, 0, 5, 5, 0, b, 0]));
    }
    for n in [0, 1, 2, 3, 127, 128, 253, 254, 255] {
        let stream = [&[5, 0, 5, 0, 0, 3, n as u8], &vec![b'n'; n][..], &[0, 80], b"rest"].concat();
        list.all([base(5).piece(&stream), base(5).piece(&stream[..6 + n]), base(5).piece(&stream[..6 + n]).flag(END)]);
        list.all([8 + n, 2].map(|at| base(5).piece(&stream[..at]).piece(&stream[at..])));
        let (before, later) = stream.split_at(stream.len().min(20));
        list.add(base(5).each_byte(before).piece(later));
    }
}

fn bound_names(list: &mut Kept) {
    let mut names: Vec<Vec<u8>> = vec![];
    for a in EDGES {
        names.extend([vec![a], vec![0xE0, a, 0x80], vec![0xED, a, 0x80]]);
        names.extend([0xF0, 0xF4].map(|lead| vec![lead, a, 0x80, 0x80]));
        if a >= 0xC0 {
            names.extend([vec![a, 0x80], vec![a, 0x80, 0x80], vec![a, 0x80, 0x80, 0x80]]);
        }
    }
    names.extend(["\u{65E5}\u{672C}\u{8A9E}.jp".into(), "a\u{1F600}b\u{10FFFF}".into()]);
    names.extend([[&[b'x'; 254][..], &[0xC3]].concat(), [&[b'x'; 253][..], "\u{E9}".as_bytes()].concat()]);
    for name in names {
        list.add(replied(5, &[&[5, 0, 5, 0, 0, 3, name.len() as u8], &name[..], &[0, 80, 7]].concat()));
    }
}

fn replies4(list: &mut Kept) {
    for b in (80..=100).chain([0, 1, 127, 128, 255]) {
        list.add(replied(4, &[0, b, 0, 80, 1, 2, 3, 4]));
    }
    for b in [1, 4, 5, 90, 128, 255] {
        list.all([7, 8, 9].map(|n| replied(4, &[b, 90, 0, 0, 0, 0, 0, 0, 0][..n])));
    }
    for code in 89..=94 {
        let stream = [0, code, 0, 80, 1, 2, 3, 4, 9];
        list.add(base(4).host(b"h").each_byte(&stream));
        list.all((0..8).map(|n| replied(4, &stream[..n]).flag(if code % 2 == 0 { END } else { 0 })));
    }
}

// ---- pieces

// Whole handshakes: every prefix, every cut in two, byte by byte, with noise between, with bytes behind.
fn pieces(list: &mut Kept) {
    let with = base(5).host(b"192.0.2.7").credentials(1, 2);
    let handshakes = [
        (base(5).host(b"192.0.2.7"), [&[5, 0], &IPV4_REPLY[..], b"SDF"].concat()),
        (base(5), [&[5, 0], &IPV6_REPLY[..], b"S"].concat()),
        (with.clone(), [&[5, 2, 1, 0], &SHORT_NAME[..], b"SDF"].concat()),
        (with.flag(OPTIMISTIC), [&[5, 2, 1, 0], &IPV4_REPLY[..], b"SDF"].concat()),
        (base(4), [&OPENS4[..], b"SDF"].concat()),
    ];
    for (case, stream) in handshakes {
        for n in 0..=stream.len() {
            let (before, behind) = stream.split_at(n);
            list.all([case.piece(before).flag(END), case.piece(before).piece(behind)]);
            let (_, asked) = asked(&case);
            if n % 3 == 0 {
                let tried = case.piece(before).piece(b"").piece_lent(asked - 1, behind);
                list.add(tried.piece_lent(asked, behind).piece_lent(0, b"").flag(END));
            }
        }
        list.add(case.each_byte(&stream));
    }
}

fn long_pieces(list: &mut Kept) {
    let name = [&[5, 0, 0, 3, 255], &[b'n'; 255][..], &[0, 80]].concat();
    let behind = vec![0xAB; 600];
    for case in [base(5), base(5).credentials(1, 1), base(5).credentials(1, 1).flag(OPTIMISTIC)] {
        let replies = good(&case);
        let stream = [&replies[..replies.len() - SHORT_NAME.len()], &name, &behind].concat();
        for n in [1, 2, 4, 255, 260, 261, 262, 263, 264, 265, 266, 267, 512, 513, 514] {
            let (before, later) = stream.split_at(n);
            list.all([case.piece(before).piece(later), case.piece(before).flag(END)]);
        }
        list.all([case.piece(&stream), case.each_byte(&stream[..270])]);
    }
    list.all([base(4).piece(&[&OPENS4[..], &[7; 3000]].concat()), base(4).piece(&[4; 2000])]);
}

// Document 01's bench sheet, and its own slips; the name of request F-4.
fn bench(list: &mut Kept) {
    list.add(base(5).host(b"[2001:db8::1]").piece(&[5, 0]));
    let hosts = [&b"["[..], b"01.2.3.4", b"1:2:3:4:5:6:7::", b"1:2:3:4:5:6:7:8::", b"1.2.3.4::"];
    list.all(hosts.map(|host| base(5).host(host).piece(&[5, 0])));
    list.all([served(base(5).host(&[b'n'; 252])), base(5).host(&[b'n'; 253]).piece(&[5, 0])]);
    list.all([246, 247].map(|sum| base(5).host(b"192.0.2.7").credentials(sum - 100, 100).piece(&[5, 2, 1, 0])));
    list.add(served(base(5).host(&[b'n'; 254])));
    let long = base(5).host(&[b'n'; 254]).credentials(255, 255);
    list.all([served(long.clone()), served(long.flag(OPTIMISTIC))]);
    let replies = hexes("0502 05FF 0501 050005050009 05000505000900 05000500000300");
    list.all(replies.iter().map(|reply| base(5).piece(reply)));
    list.all([base(5).credentials(1, 1).piece(&[5, 2, 1, 7]), base(5).each_byte(&[5, 0, 5, 0, 0, 3, 1, 0xFF, 0, 80])]);
    list.all([base(4).piece(&[4, 90, 0, 0, 0, 0, 0]), base(4).piece(&[4, 90, 0, 0, 0, 0, 0]).piece(&[0])]);
    list.all([base(4).piece(&[0, 91, 0, 0, 0, 0, 0, 0]), base(4).host(b"elevenbytes")]);
}

// ---- the bound address

// The replies that open a case's session, the last with this address, its kind ahead of it, and port.
fn bound_at(case: &Opening, address: &[u8], port: u16) -> Vec<u8> {
    let port = port.to_be_bytes();
    match (case.version, case.has(CREDENTIALS)) {
        (4, _) => [&[0, 90], &port[..], &address[1..]].concat(),
        (_, false) => [&[5, 0, 5, 0, 0], address, &port].concat(),
        (_, true) => [&[5, 2, 1, 0, 5, 0, 0], address, &port].concat(),
    }
}

fn named(name: &[u8]) -> Vec<u8> {
    [&[3, name.len() as u8], name].concat()
}

fn six(groups: [u16; 8]) -> Vec<u8> {
    [4].into_iter().chain(groups.into_iter().flat_map(u16::to_be_bytes)).collect()
}

// A case of each kind of session, with each kind of address, whose text has this length.
fn bound_sessions() -> Vec<(Session, Vec<u8>, u16)> {
    let addresses = [
        (vec![1, 192, 0, 2, 7], 8080, 14),
        (six([0x2001, 0xDB8, 0, 0, 1, 0, 0, 1]), 1080, 24),
        (named(b"exit.example"), 443, 16),
    ];
    let mut all = vec![];
    for case in base_cases().into_iter().take(4) {
        all.extend(addresses.iter().map(|(address, port, n)| (case.clone(), bound_at(&case, address, *port), *n)));
    }
    // the port first: were it read behind the address, this would be 2.1.192.0:519
    for case in [base(4), base(4).host(b"1.2.3.4"), base(4).flag(LOCAL_LOOKUP).records("64")] {
        let replies = bound_at(&case, &[1, 192, 0, 2, 7], 513);
        all.push((case, replies, 13));
    }
    all
}

// Whole, with bytes behind the reply, byte by byte, cut in two, with noise; the buffer at the text's length and beside.
fn bound_pieces(list: &mut Kept) {
    for (case, replies, n) in bound_sessions() {
        let whole = case.piece(&replies);
        list.all([n, n - 1, n + 1, 0, 2048, 2049, 65535].map(|lent| whole.told(lent)));
        let behind = [&replies[..], b"SDF"].concat();
        for flags in [0, END] {
            list.all([whole.flag(flags).told(n), case.piece(&behind).flag(flags).told(n)]);
            list.add(case.each_byte(&behind).flag(flags).told(n));
        }
        list.add(case.piece(&behind).told(n - 1));
        let (_, asked) = asked(&case);
        list.add(whole.piece(&replies).piece_lent(asked - 1, b"lost").piece(b"").flag(END).told(n));
        let tried = case.piece_lent(asked - 1, &replies).piece(b"").piece_lent(0, b"");
        list.all([tried.told(2048), tried.piece_lent(asked, &replies).told(n)]);
    }
    for (case, replies, n) in bound_sessions().into_iter().step_by(4) {
        let halves = case.told(n).halves(&[&replies[..], b"on"].concat());
        list.all(halves.into_iter().take(replies.len() - 1));
    }
}

// No text: waiting, failed, ended, refused, not started.
fn not_open(list: &mut Kept) {
    for (case, replies, _) in bound_sessions() {
        let last = replies.len() - 1;
        for lent in [2048, 0] {
            list.all([case.told(lent), case.flag(END).told(lent)]);
            let (begun, (start, _)) = (case.piece(&replies[..last]), asked(&case));
            list.all([begun.told(lent), begun.flag(END).told(lent), case.lent(start - 1).piece(&replies).told(lent)]);
            list.add(case.lent(0).piece(&replies).flag(END).told(lent));
        }
        // the reply's second byte
        let (at, statuses) = match (case.version, case.has(CREDENTIALS)) {
            (4, _) => (1, [89, 91, 93]),
            (_, with) => (if with { 5 } else { 3 }, [1, 8, 9]),
        };
        for status in statuses {
            let mut failing = replies.clone();
            failing[at] = status;
            list.all([case.piece(&failing).told(2048), case.each_byte(&failing).flag(END).told(0)]);
            list.add(case.piece(&failing).piece(&replies).told(2048));
        }
    }
    let v5 = hexes("05FF 0502 0400 05020107 05000500000301FF0050 05000500000300 05000500000200 0500050001");
    for (i, reply) in v5.into_iter().chain([vec![4, 90, 0, 80, 1, 2, 3, 4]]).enumerate() {
        let case = match i {
            3 => base(5).credentials(1, 1),
            8 => base(4),
            _ => base(5),
        };
        list.all([case.piece(&reply).told(2048), case.piece(&reply).flag(END).told(0)]);
    }
    for case in unprepared() {
        list.all([case.told(2048), served(case.flag(END)).told(0)]);
    }
}

// Each number of preparing.
pub fn unprepared() -> Vec<Session> {
    let mut all = vec![base(5).host(b""), base(5).host(b"a b"), base(5).portless(), base(5).credentials(0, 256)];
    all.extend([base(5).host(&[b'n'; 256]), base(5).flag(LOCAL_LOOKUP)]);
    all.extend([&b"[]"[..], b"::1", &[b'n'; 1015]].map(|host| base(4).host(host)));
    all.extend([base(4).flag(LOCAL_LOOKUP).records("6"), base(4).host(b"0.0.0.5")]);
    all
}

// One digit to four, the first or the last of so many; then those with an IPv4 address inside.
const SIXES: &str = "
    2001:db8:0:0:1:0:0:1 ::1 1:f:10:ff:100:fff:1000:ffff abcd:ef01:2345:6789:abc:def:a:f0 1000:200:30:4:5000:600:70:8
    ffff:ffff:ffff:ffff:ffff:ffff:ffff:ffff 2001:db8:0:1:1:1:1:1 2001:0:0:1::1 2001:db8:ffff::100
    ::ffff:c000:207 ::ffff:0:0 ::ffff:0:5 ::ffff:ffff:ffff ::c000:207 ::1:0 ::ffff:0:c000:207 64:ff9b::c000:207
    fe80::5efe:c000:207 ::fffe:c000:207";

fn bound_six(list: &mut Kept) {
    let mut all: Vec<[u16; 8]> =
        SIXES.split_whitespace().map(|text| text.parse::<Ipv6Addr>().unwrap().segments()).collect();
    // every set of zero groups
    all.extend((0..256).map(|set| std::array::from_fn(|i| if set >> i & 1 == 0 { 0 } else { i as u16 + 1 })));
    list.all(all.into_iter().map(|groups| replied(5, &bound_at(&base(5), &six(groups), 1080)).told(2048)));
    // the longest text, 47 bytes
    for lent in [46, 47, 48] {
        list.all([0xFFFF, 0].map(|group| replied(5, &bound_at(&base(5), &six([group; 8]), 65535)).told(lent)));
    }
    // the shortest, 6 bytes
    list.all([5, 6].map(|lent| replied(5, &bound_at(&base(5), &six([0; 8]), 0)).told(lent)));
}

// Numbers at the ends of their digits, over both versions; the longest text has 21 bytes, the shortest 9.
fn bound_four(list: &mut Kept) {
    let addresses =
        [[0, 0, 0, 0], [0, 0, 0, 5], [9, 10, 99, 100], [1, 2, 3, 4], [127, 0, 0, 1], [199, 200, 249, 250], [255; 4]];
    for version in [5, 4] {
        let case = base(version).host(b"h");
        for address in addresses.map(|address| [&[1], &address[..]].concat()) {
            list.all([0, 9, 443, 65535].map(|port| case.piece(&bound_at(&case, &address, port)).told(2048)));
        }
        for (address, port, n) in [([255; 4], 65535, 21), ([0; 4], 0, 9)] {
            let replies = bound_at(&case, &[&[1], &address[..]].concat(), port);
            list.all([n, n - 1].map(|lent| case.piece(&replies).told(lent)));
        }
        for port in [1, 10, 80, 99, 100, 255, 256, 257, 999, 1000, 9999, 10000, 10101, 32768, 59999, 60000] {
            list.add(case.piece(&bound_at(&case, &[1, 10, 0, 0, 1], port)).told(2048));
        }
    }
}

const NAMES: &str = "x X ab Exit.Example example. 192.0.2.7 2001:db8::1 [::1] [::1]:80 : :: a:80 - \0 a\0b \u{7F} \
    \u{80} \u{E9} \u{7FF}\u{800} \u{65E5}\u{672C}\u{8A9E}.jp \u{D7FF}\u{E000}\u{FFFF} a\u{1F600}b\u{10FFFF} \u{10000}";

// Names as received, whatever they hold.
fn bound_names_told(list: &mut Kept) {
    let mut names: Vec<Vec<u8>> = NAMES.split(' ').map(Vec::from).collect();
    names.extend([" ".into(), "a b\n".into(), "\u{1F600}".repeat(63).into(), "\u{65E5}".repeat(85).into()]);
    for name in names {
        for case in [base(5).host(b"h"), base(5).host(b"h").credentials(1, 1)] {
            let replies = bound_at(&case, &named(&name), 80);
            list.all([case.piece(&replies).told(2048), case.piece(&replies).told(name.len() as u16 + 2)]);
        }
    }
    for n in [1, 2, 3, 253, 254, 255] {
        for (port, digits) in [(0, 1), (65535, 5)] {
            let case = base(5).host(b"h");
            let replies = bound_at(&case, &named(&vec![b'n'; n]), port);
            let whole = n as u16 + 1 + digits;
            list.all([whole, whole - 1, 0, 2048, 2049].map(|lent| case.piece(&replies).told(lent)));
            let (before, later) = replies.split_at(replies.len() - 1);
            list.add(case.piece(before).piece(&[later, b"on"].concat()).told(whole));
            list.add(case.piece(&[&replies[..], &vec![0xAB; 600]].concat()).told(whole));
        }
    }
    // with the longest requests
    for flags in [0, OPTIMISTIC] {
        let case = base(5).host(&[b'r'; 255]).credentials(255, 255).flag(flags).lent(778);
        let replies = bound_at(&case, &named(&[b'n'; 255]), 65535);
        list.all([260, 261].map(|lent| case.piece_lent(778, &replies).told(lent)));
    }
}

// ---- the attempts

// A session of each kind, and the replies that open it; request F-11's first.
fn counted_sessions() -> Vec<(Session, Vec<&'static [u8]>)> {
    let with = base(5).credentials(1, 2);
    let mut all: Vec<(Session, Vec<&[u8]>)> = vec![
        (base(5).host(b"192.0.2.7"), vec![&[5, 0], &IPV4_REPLY]),
        (base(5).flag(OPTIMISTIC), vec![&[5, 0], &IPV6_REPLY]),
        (with.clone(), vec![&[5, 2], &[1, 0], &IPV4_REPLY]),
        (with.flag(OPTIMISTIC), vec![&[5, 2], &[1, 0], &SHORT_NAME]),
        (base(4), vec![&OPENS4]),
    ];
    all.iter_mut().for_each(|(case, _)| case.last |= ATTEMPTS);
    all
}

// Byte by byte, in one piece, reply by reply, with bytes behind; every prefix and every cut in two.
fn counted_pieces(list: &mut Kept) {
    for (case, replies) in counted_sessions() {
        let stream = replies.concat();
        let behind = [&stream[..], b"SDF"].concat();
        list.all([case.each_byte(&stream), case.piece(&stream), case.pieces(replies)]);
        list.all([case.each_byte(&behind).flag(END), case.piece(&behind)]);
        for n in 0..=stream.len() {
            let (before, later) = behind.split_at(n);
            list.all([case.piece(before), case.each_byte(before).flag(END), case.piece(before).piece(later)]);
        }
    }
}

// What adds nothing: an empty piece, a delivery that lends too little, one to a session that is open; an end.
fn counted_noise(list: &mut Kept) {
    for (case, replies) in counted_sessions() {
        let stream = replies.concat();
        let (_, asked) = asked(&case);
        list.all([case.piece(b""), case.piece(b"").piece_lent(asked, b"").piece_lent(0, b"").flag(END)]);
        list.all([case.piece_lent(asked - 1, &stream), case.piece_lent(asked - 1, &stream).flag(END)]);
        for n in [0, 1, 2, 3, 5, stream.len() - 1, stream.len()] {
            let (before, later) = stream.split_at(n);
            let empty = case.piece(before).piece_lent(asked, b"");
            list.all([empty.clone(), empty.piece(later).piece(b"").flag(END)]);
            let short = case.piece(before).piece_lent(asked - 1, later).piece_lent(0, &stream);
            list.all([short.flag(END), short.piece_lent(asked, later).piece_lent(asked - 1, b"lost")]);
        }
        let noise = |case: Session, b: &u8| case.piece(b"").piece_lent(asked - 1, &[*b]).piece_lent(asked, &[*b]);
        list.add(stream.iter().fold(case.clone(), noise));
        let open = case.piece(&stream);
        list.all([open.flag(END), open.piece(&stream)]);
        list.add(open.each_byte(&stream).piece(b"").piece_lent(0, b"xy").flag(END));
    }
}

// At the first reply, the second and the third: in one piece, byte by byte, cut in two, with more behind.
fn counted_failures(list: &mut Kept) {
    let with = base(5).credentials(1, 1);
    let start = |case: &Opening| if case.has(CREDENTIALS) { vec![5, 2, 1, 0] } else { vec![5, 0] };
    let mut all = vec![];
    for case in [base(5), base(5).flag(OPTIMISTIC), with.clone(), with.flag(OPTIMISTIC)] {
        let wrong = if case.has(CREDENTIALS) { 0 } else { 2 };
        all.extend([[5, 0xFF], [5, 1], [5, wrong], [4, 0]].map(|reply| (case.clone(), reply.to_vec())));
        let connects =
            hexes("050900 050001 0500000200 0500000300 05010001C00002071F90 0508000301780050 0500000301FF0050");
        all.extend(connects.into_iter().map(|reply| (case.clone(), [start(&case), reply].concat())));
    }
    for case in [with.clone(), with.flag(OPTIMISTIC)] {
        all.extend([[5, 2, 1, 7], [5, 2, 0, 0]].map(|reply| (case.clone(), reply.to_vec())));
    }
    all.extend([[0, 91], [0, 93], [0, 89], [4, 90]].map(|reply| (base(4), [&reply, &OPENS4[2..]].concat())));
    for (case, stream) in all {
        let case = case.flag(ATTEMPTS);
        let replies = good(&case);
        list.all([case.piece(&stream), case.each_byte(&stream).flag(END)]);
        list.all([case.piece(&[&stream, &replies[..]].concat()), case.each_byte(&stream).each_byte(&replies)]);
        let (before, last) = stream.split_at(stream.len() - 1);
        list.add(case.piece(before).piece(b"").piece(last).piece_lent(0, &replies).piece(&replies));
        if !case.has(OPTIMISTIC) {
            list.all(case.halves(&stream).into_iter().take(before.len().saturating_sub(1)));
        }
    }
}

// None: a start that lends too little, and what preparing refuses, whatever is delivered.
fn counted_refusals(list: &mut Kept) {
    for (case, replies) in counted_sessions() {
        let stream = replies.concat();
        let (start, delivery) = asked(&case);
        for lent in [0, start - 1] {
            let case = case.lent(lent);
            list.all([case.clone(), case.piece_lent(delivery, &stream), case.each_byte(&stream).flag(END)]);
            list.add(case.piece(b"").piece_lent(delivery - 1, &stream).piece_lent(delivery, &stream).flag(END));
        }
    }
    for case in unprepared() {
        let case = case.flag(ATTEMPTS);
        let replies = good(&case);
        list.all([case.clone(), case.piece(&replies)]);
        list.add(case.each_byte(&replies).piece(b"").piece_lent(0, b"lost").flag(END));
    }
}

// Names byte by byte, near a hundred attempts and up to the most of any session, 268; the longest in larger pieces too.
fn counted_names(list: &mut Kept) {
    let with = base(5).host(b"h").credentials(1, 1);
    for case in [base(5).host(b"h"), with.clone(), with.flag(OPTIMISTIC)] {
        let case = case.flag(ATTEMPTS);
        let stream = |n: usize| bound_at(&case, &named(&vec![b'n'; n]), 80);
        list.all([1, 87, 88, 89, 90, 254, 255].map(|n| case.each_byte(&stream(n))));
        let longest = stream(255);
        list.add(case.each_byte(&longest[..longest.len() - 1]).flag(END));
        list.add(case.each_byte(&longest).piece(b"on").flag(END));
        let n = longest.len();
        list.all([2, 3, 100, 261, 262, n - 1, n].map(|most| case.pieces(longest.chunks(most))));
        let failing = [&longest[..n - 3], &[0xFF], &longest[n - 2..]].concat();
        list.all([case.each_byte(&failing), case.piece(&failing)]);
    }
}

// The text and the attempts together.
fn told_and_counted(list: &mut Kept) {
    for (case, replies, n) in bound_sessions() {
        let case = case.flag(ATTEMPTS);
        let (start, _) = asked(&case);
        for lent in [n, n - 1] {
            list.all([case.piece(&replies).told(lent), case.each_byte(&replies).told(lent)]);
        }
        let (before, last) = replies.split_at(replies.len() - 1);
        list.all([case.piece(before).told(n), case.each_byte(before).flag(END).told(n)]);
        list.add(case.piece(before).piece(&[last, b"SDF"].concat()).piece(&replies).flag(END).told(n));
        list.all([case.lent(start - 1).piece(&replies).told(n), case.told(n)]);
    }
    for case in unprepared() {
        list.add(served(case).flag(ATTEMPTS).told(2048));
    }
}

pub fn add(list: &mut Kept) {
    let first = list.cases.len();
    list.parts(&[bench, refusals, not_started, outputs, host_bytes, host_texts, name_lengths, credential_lengths]);
    list.parts(&[long_requests, ports, lookups, announcing, method_replies, connect_replies, bound_names, replies4]);
    list.parts(&[pieces, long_pieces]);
    let fill = CASES.saturating_sub(list.cases.len() - first);
    // beside the kind and the calls' letters
    let small = |case: &Case| case.bytes().len() - 1 - case.calls.len() < SMALL;
    list.random(fill, |r| generate::session::plain(r).case(), small);
    list.parts(&[bound_pieces, not_open, bound_six, bound_four, bound_names_told]);
    let asks = |case: &Case, letter: u8| case.calls.iter().any(|call| call.letter() == letter);
    list.random(ASKING, |r| generate::session::textual(r).case(), |case| small(case) && asks(case, b'b'));
    list.parts(&[counted_pieces, counted_noise, counted_failures, counted_refusals, counted_names, told_and_counted]);
    list.random(COUNTING, |r| generate::in_order(b'S', r, 0), |case| small(case) && asks(case, b't'));
}
