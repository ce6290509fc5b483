//! Cases of the proxy's end in the kept list: every number, status and boundary of request F-3.
use super::{Kept, hexes};
use crate::case::*;
use crate::draft::*;
use crate::generate;
use crate::requests::*;

type End = Draft<SetUp>;

// Random cases fill the list up to so many, as far as they are small.
const CASES: usize = 1060;
const SMALL: usize = 300;

// ---- cases

fn bare() -> End {
    Draft::new(SetUp { flags: 0, user: vec![], password: vec![] })
}

// Set up with credentials.
fn set(user: &[u8], password: &[u8]) -> End {
    Draft::new(SetUp { flags: CREDENTIALS, user: user.to_vec(), password: password.to_vec() })
}

impl End {
    pub fn answer_lent(&self, lent: u16, status: u8, family: u8, address: [u8; 16], port: u16) -> Self {
        self.but(|other| other.calls.push(Call::Answer(lent, Answer { status, bound: (family, address), port })))
    }

    // Bound to 10.0.0.1, port 8080.
    pub fn answer(&self, status: u8) -> Self {
        self.answer_lent(SetUp::ENOUGH, status, 4, BOUND, 8080)
    }
}

// ---- sessions

// An end, the client's requests one by one, and the status of success.
struct Session {
    end: End,
    requests: Vec<Vec<u8>>,
    success: u8,
}

impl Session {
    fn stream(&self) -> Vec<u8> {
        self.requests.concat()
    }
}

fn session5(with: bool, address: &[u8]) -> Session {
    let connect = connect([5, 1, 0], address);
    if with {
        let requests = vec![greeting(&[0, 2]), credentials(b"u", b"pw"), connect];
        return Session { end: set(b"u", b"pw"), requests, success: 0 };
    }
    Session { end: bare(), requests: vec![greeting(&[0]), connect], success: 0 }
}

fn session4(address: [u8; 4], user_id: &[u8], name: Option<&[u8]>) -> Session {
    Session { end: bare(), requests: vec![request4(1, address, user_id, name)], success: 90 }
}

// One of each: without credentials and with, addresses and names, user ids.
fn sessions() -> Vec<Session> {
    let addresses = [FOUR.to_vec(), SIX.to_vec(), named(b"a.example")];
    let v5 = [false, true].into_iter().flat_map(|with| addresses.iter().map(move |address| session5(with, address)));
    let mut all: Vec<Session> = v5.collect();
    all.extend([session4([192, 0, 2, 7], b"", None), session4([192, 0, 2, 7], b"me", None)]);
    all.extend([session4([0, 0, 0, 0], b"", None), session4([0, 0, 0, 255], b"", Some(b"a.example"))]);
    all.push(session4([0, 0, 0, 1], b"me", Some(b"x")));
    all
}

// One short connect and one short v4 request that hand out a destination.
fn good5() -> Vec<u8> {
    [greeting(&[0]), connect([5, 1, 0], &FOUR)].concat()
}

fn good4() -> Vec<u8> {
    request4(1, [192, 0, 2, 7], b"", None)
}

// An end that awaits the caller's answer.
pub fn asked() -> End {
    bare().piece(&good5())
}

// Ends with the requests that get them so far, and the status of success; one whose set-up is refused.
pub fn shortest() -> [(SetUp, Vec<u8>, u8); 4] {
    let with = [greeting(&[2]), credentials(b"u", b"pw"), connect([5, 1, 0], &named(b"x"))].concat();
    [
        (bare().of, good5(), 0),
        (bare().of, good4(), 90),
        (set(b"u", b"pw").of, with, 0),
        (set(&[b'u'; 256], b"").of, good5(), 0),
    ]
}

// Whole, one byte short of whole, and byte by byte with more behind.
fn ways(list: &mut Kept, end: &End, stream: &[u8]) {
    list.all([end.piece(stream).piece(b"late").answer(0).answer(90), end.piece(&stream[..stream.len() - 1])]);
    list.add(end.each_byte(stream).piece(b"SDF").flag(END));
}

// Whole with more behind it.
fn once(list: &mut Kept, end: &End, stream: &[u8]) {
    list.add(end.piece(&[stream, b"SDF"].concat()).flag(END));
}

// ---- whole sessions

// Nothing yet; the requests at once, one by one and byte by byte, with and without more behind; answered and not.
fn whole(list: &mut Kept) {
    for session in sessions() {
        let (end, success, stream) = (session.end.clone(), session.success, session.stream());
        list.all([end.clone(), end.flag(END), end.piece(&stream), end.piece(&stream).answer(success).flag(END)]);
        list.add(end.piece(&[&stream, &b"SDF"[..]].concat()).answer(success).piece(b"more").flag(END));
        list.add(end.piece(&[&stream[..], &stream].concat()).answer(success).piece(&stream));
        let one_by_one = end.pieces(session.requests.iter().map(|request| &request[..]));
        list.all([one_by_one.answer(success).flag(END), end.each_byte(&stream).answer(success).each_byte(b"SDF")]);
        list.add(end.each_byte(&[&stream, &b"SD"[..]].concat()).answer_lent(262, success, 6, BOUND, 0));
    }
}

// In two at every byte.
fn cuts(list: &mut Kept) {
    for session in [2, 4, 5, 7, 9].map(|n| sessions().remove(n)) {
        let halves = session.end.halves(&[&session.stream()[..], b"S"].concat());
        list.all(halves.iter().map(|half| half.answer(session.success)));
    }
}

// 9 behind every byte.
fn ends(list: &mut Kept) {
    for session in [2, 4, 9].map(|n| sessions().remove(n)) {
        let stream = session.stream();
        list.all((1..stream.len()).map(|n| session.end.piece(&stream[..n]).flag(END)));
    }
}

// ---- set-up

// 5 with credentials alone; every call is then 16, and every piece that is lent enough is rest.
fn set_ups(list: &mut Kept) {
    for (user, password) in [(256, 0), (0, 256), (256, 256), (255, 256), (256, 255), (1000, 1), (65535, 0)] {
        let end = set(&vec![b'u'; user], &vec![b'p'; password]);
        let late = |case: End| case.piece_lent(262, &good5()).piece_lent(261, b"lost").piece(b"").answer(0);
        list.add(late(end.clone()).flag(END));
        if user + password < 1000 {
            list.all([end.clone(), end.flag(END), end.answer_lent(0, 90, 6, BOUND, 1).each_byte(&good4())]);
            let without = end.but(|end| end.flags = 0);
            list.all([without.piece(&good5()).answer(0), without.piece(&good4()).answer(90).flag(END)]);
        }
    }
    // flags that are none
    for flags in [2, 4, 128, 238] {
        list.add(bare().flag(flags).piece(&good5()).answer(0));
        list.add(set(b"u", b"pw").flag(flags).piece(&greeting(&[2])).flag(END));
    }
}

// ---- v5

const PORTS: [[u8; 2]; 5] = [[0, 0], [0, 1], [0, 255], [1, 0], [255, 255]];

fn first_bytes(list: &mut Kept) {
    for first in [0, 1, 3, 6, 255] {
        list.add(bare().piece(&[first]));
        once(list, &bare(), &[first]);
        list.add(set(b"", b"").piece(&[first, 1, 2]).piece(b"late").answer(0));
    }
}

// `02` with credentials, else `00`: anywhere among the methods, or not; decided when the greeting is whole.
fn greetings(list: &mut Kept) {
    for end in [bare(), set(b"u", b"pw")] {
        let right = if end.has(CREDENTIALS) { 2 } else { 0 };
        list.add(end.piece(&[5, 0]).flag(END));
        once(list, &end, &[5, 0]);
        list.add(end.each_byte(&[5, 0, 0, 2]));
        for methods in [&[right][..], &[2 - right], &[right, 2 - right]] {
            ways(list, &end, &greeting(methods));
        }
        for methods in [&[2 - right][..], &[1], &[0xFF], &[3], &[1, 0xFF], &[2, 0], &[0, 2], &[right, right]] {
            list.add(end.piece(&[&greeting(methods)[..], &connect([5, 1, 0], &FOUR)].concat()).answer(0));
        }
        for n in [2, 254, 255] {
            let stream = greeting(&vec![0x80; n]);
            once(list, &end, &stream);
            for place in [0, n / 2, n - 1] {
                let stream = [&stream[..2 + place], &[right], &stream[3 + place..]].concat();
                list.add(end.piece(&stream[..n + 1]).piece(&stream[n + 1..]).flag(END));
            }
        }
    }
}

// Lengths from none to 255; wrong ones are told once whole.
fn logins(list: &mut Kept) {
    let hello = greeting(&[2]);
    let after = connect([5, 1, 0], &named(b"x"));
    for (user, password) in [(0, 0), (0, 1), (1, 0), (1, 1), (255, 0), (0, 255), (255, 255)] {
        let (user, password) = (vec![b'u'; user], vec![b'p'; password]);
        let end = set(&user, &password);
        let login = credentials(&user, &password);
        list.add(end.piece(&[&hello[..], &login, &after].concat()).answer(0));
        list.add(end.pieces([&hello[..], &login, &after]).answer(5));
        list.add(end.piece(&[&hello[..], &login[..login.len() - 1]].concat()).flag(END));
        let more = |text: &[u8]| [text, b"x"].concat();
        let mut wrong = vec![credentials(&password, &user), credentials(b"", b""), credentials(b"x", b"y")];
        wrong.extend((user.len() < 255).then(|| credentials(&more(&user), &password)));
        wrong.extend((password.len() < 255).then(|| credentials(&user, &more(&password))));
        if let [_, less @ ..] = &user[..] {
            wrong.extend([credentials(less, &password), credentials(&more(less), &password)]);
        }
        if let [_, less @ ..] = &password[..] {
            wrong.extend([credentials(&user, less), credentials(&user, &[b"x", less].concat())]);
        }
        let told = |login: &Vec<u8>| end.piece(&hello).piece(&[login, &after[..]].concat()).piece(b"late").answer(0);
        list.all(wrong.iter().map(told));
    }
    let end = set(b"user", b"pass");
    for login in [credentials(b"User", b"pass"), credentials(b"user", b"pasS"), credentials(b"use", b"rpass")] {
        ways(list, &end, &[&hello[..], &login].concat());
    }
    for version in [0, 2, 4, 5, 255] {
        once(list, &end, &[&hello[..], &[version]].concat());
        list.add(end.piece(&hello).piece(&[version, 4]).flag(END));
    }
    // any bytes
    let odd = [0, 255, 1, 128];
    list.add(set(&odd, &[0]).piece(&[&hello[..], &credentials(&odd, &[0]), &after].concat()).answer(0));
    // none are read where none are set
    once(list, &bare(), &[&greeting(&[0, 2])[..], &credentials(b"u", b"pw"), &after].concat());
}

// Version, then the reserved byte whatever the command, then the type, then the command once all is there.
fn connects(list: &mut Kept) {
    for (end, hello) in
        [(bare(), greeting(&[0])), (set(b"u", b"pw"), [greeting(&[2]), credentials(b"u", b"pw")].concat())]
    {
        let at = |stream: &[u8]| [&hello[..], stream].concat();
        hexes("00 01 04 06 FF").iter().for_each(|version| once(list, &end, &at(version)));
        list.add(end.piece(&hello).piece(&connect([4, 1, 0], &FOUR)).flag(END));
        let reserved = "050101 0501FF 050201 0502FF";
        let kinds = "05010000 05010002 05010005 05010006 05010080 050100FF 05000000 05020002 05FF00FF";
        hexes(reserved).iter().chain(&hexes(kinds)).for_each(|start| once(list, &end, &at(start)));
        list.add(end.piece(&hello).piece(&[5, 1, 1]).answer(0).piece(b"late"));
        list.add(end.piece(&hello).piece(&[5, 1, 0, 2]).answer(0).piece(b"late").flag(END));
        list.add(end.each_byte(&at(&connect([5, 1, 0], &[9, 1, 2, 3, 4]))));
        for command in [0, 2, 3, 255] {
            for address in [&FOUR[..], &SIX, &named(b"x")] {
                once(list, &end, &at(&connect([5, command, 0], address)));
            }
        }
        ways(list, &end, &at(&connect([5, 2, 0], &named(b"ab"))));
    }
}

// A name of 1 to 255 of any bytes; addresses and ports at their edges.
fn destinations5(list: &mut Kept) {
    let at = |address: &[u8]| [&greeting(&[0])[..], &connect([5, 1, 0], address)].concat();
    [1, 2].iter().for_each(|command| once(list, &bare(), &[5, 1, 0, 5, *command, 0, 3, 0]));
    list.add(bare().each_byte(&at(&[3, 0, 0])));
    for n in [1, 2, 127, 128, 254, 255] {
        let name = vec![b'n'; n];
        list.all([bare().piece(&at(&named(&name))).answer(0), bare().piece(&at(&named(&name))[..n + 9]).flag(END)]);
        list.add(bare().pieces(at(&named(&name)).chunks(100)).answer(8));
    }
    list.add(bare().each_byte(&at(&named(&[b'n'; 255]))).answer(0));
    let every: Vec<u8> = (1..=255).collect();
    for name in [&[0][..], &[0, 0], &[255], b"[", b"192.0.2.7", b"[::1]", b"a b", "\u{e4}".as_bytes(), &[0xC3], &every]
    {
        list.add(bare().piece(&at(&named(name))).answer(0).flag(END));
    }
    for last in [0, 1, 255] {
        list.add(bare().piece(&at(&[1, 0, 0, 0, last])).answer(0));
        list.add(bare().piece(&at(&[&[4], &[last; 16][..]].concat())).answer(0));
    }
    list.add(bare().piece(&at(&[1, 255, 255, 255, 255])));
    list.all(PORTS.map(|port| bare().piece(&[&at(&FOUR)[..11], &port].concat()).answer(0)));
}

// ---- v4

fn commands4(list: &mut Kept) {
    let requests = |command: u8| {
        [
            request4(command, [192, 0, 2, 7], b"", None),
            request4(command, [0, 0, 0, 0], b"me", None),
            request4(command, [0, 0, 0, 7], b"", Some(b"x.example")),
        ]
    };
    for command in [0, 2, 3, 255] {
        requests(command).iter().for_each(|request| once(list, &bare(), request));
        once(list, &set(b"u", b"pw"), &requests(command)[0]);
    }
    ways(list, &bare(), &requests(2)[1]);
    // 20 ahead of 15, also for credentials of no bytes
    for command in [1, 2] {
        requests(command).iter().for_each(|request| ways(list, &set(b"u", b"pw"), request));
        once(list, &set(b"", b""), &requests(command)[0]);
    }
}

fn user_ids(list: &mut Kept) {
    for n in [0, 1, 2, 127, 254, 255] {
        let id = vec![b'i'; n];
        for (address, name) in [([10, 0, 0, 1], None), ([0, 0, 0, 9], Some(&b"nm"[..]))] {
            list.add(bare().piece(&request4(1, address, &id, name)).answer(90));
            list.add(bare().piece(&request4(1, address, &id, name)[..8 + n]).flag(END));
        }
    }
    // 19 at the 256th, whatever the address, the command and the credentials
    for n in [256, 257, 300] {
        for (address, name) in [([10, 0, 0, 1], None), ([0, 0, 0, 9], Some(&b"nm"[..]))] {
            let request = request4(1, address, &vec![b'i'; n], name);
            list.all([bare().piece(&request), set(b"u", b"pw").piece(&request[..8 + 256]).piece(b"late").flag(END)]);
            list.add(bare().piece(&request[..8 + 255]).piece(&request[8 + 255..]).flag(END));
        }
    }
    list.add(bare().each_byte(&request4(2, [10, 0, 0, 1], &[255; 256], None)));
    list.add(bare().piece(&request4(1, [10, 0, 0, 1], &(1..=255).collect::<Vec<u8>>(), None)).answer(90));
}

fn names4(list: &mut Kept) {
    let announced = [0, 0, 0, 255];
    for n in [1, 2, 255, 256, 257, 1013, 1014] {
        let request = request4(1, announced, b"", Some(&vec![b'n'; n]));
        list.all([bare().piece(&request).answer(90), bare().piece(&request[..request.len() - 1]).flag(END)]);
        list.add(bare().pieces(request.chunks(255)).answer(91).piece(b"late"));
    }
    // with the longest user id
    let longest = request4(1, announced, &[b'i'; 255], Some(&[b'n'; 1014]));
    list.all([bare().piece(&longest).answer(90), bare().each_byte(&longest).answer(90)]);
    list.add(set(b"u", b"").piece(&longest).flag(END));
    list.add(bare().piece(&request4(2, announced, &[b'i'; 255], Some(&[b'n'; 1014]))).flag(END));
    // 19 at the 1,015th
    for n in [1015, 1016, 1300] {
        for id in [&b""[..], b"me"] {
            let request = request4(1, announced, id, Some(&vec![b'n'; n]));
            let at = 9 + id.len() + 1015;
            list.all([bare().piece(&request).flag(END), bare().piece(&request[..at - 1]).piece(&request[at - 1..])]);
            list.add(set(b"u", b"").piece(&request[..at]).answer(90));
        }
    }
    // 19 at its `00`
    for end in [bare(), set(b"u", b"pw")] {
        for (command, id) in [(1, &b""[..]), (1, b"me"), (2, b""), (2, b"me")] {
            ways(list, &end, &request4(command, announced, id, Some(b"")));
        }
    }
    for name in [&[255][..], b"192.0.2.7", b"[", b"a b", &(1..=255).collect::<Vec<u8>>()] {
        list.add(bare().piece(&request4(1, announced, b"", Some(name))).answer(90).flag(END));
    }
}

// Which addresses announce a name; ports.
fn addresses4(list: &mut Kept) {
    for address in hexes("00000000 00000001 00000080 000000FF 00000100 00000101 00010001 01000001 FFFFFFFF") {
        let request = |name| request4(1, address[..].try_into().unwrap(), b"", name);
        list.all([bare().piece(&request(Some(b"nm"))).answer(90), bare().piece(&request(None)).flag(END)]);
    }
    for port in PORTS {
        for request in [good4(), request4(1, [0, 0, 0, 1], b"", Some(b"nm"))] {
            list.add(bare().piece(&[&request[..2], &port, &request[4..]].concat()).answer(90));
        }
    }
}

// ---- the caller's answer

fn statuses(list: &mut Kept) {
    let all = (0..=9).chain(89..=94).chain([255]);
    for status in all {
        for (stream, behind) in [(good5(), b"five"), (good4(), b"four")] {
            let six = bare().piece(&stream).answer_lent(262, status, 6, BOUND, 443);
            list.all([bare().piece(&stream).answer(status), six.piece(behind).answer(0).flag(END)]);
        }
    }
}

fn bounds(list: &mut Kept) {
    let mapped = [0, 0, 0, 0, 0, 0, 0, 0, 0, 0, 255, 255, 192, 0, 2, 7];
    for (stream, success) in [(good5(), 0), (good4(), 90)] {
        for family in [4, 6] {
            let answered = |address, port| bare().piece(&stream).answer_lent(2048, success, family, address, port);
            list.all([[0; 16], [255; 16], BOUND, mapped].map(|address| answered(address, 80)));
            list.all([0, 1, 255, 256, 65535].map(|port| answered(BOUND, port)));
        }
    }
    // of the other destinations, with the replies before
    for session in sessions() {
        let (status, asked) = (session.success + 2, session.end.piece(&session.stream()));
        list.add(asked.answer_lent(2048, status, 6, BOUND, 1).piece(b"late").flag(END));
    }
}

// ---- output and turns

// 1 below 262 bytes, for deliveries and answers. Nothing is used then, and no rest is told.
fn outputs(list: &mut Kept) {
    let lents = [0, 261, 262, 65535, 1, 263, 2047, 2048, 2049];
    for (stream, success, n) in [(good5(), 0, 9), (good4(), 90, 4)] {
        let (before, later) = stream.split_at(4);
        for lent in lents.into_iter().take(n) {
            let tail = [&stream[..], b"SDF"].concat();
            list.add(bare().piece_lent(lent, &tail).flag(END));
            list.add(bare().piece_lent(lent, &tail).piece_lent(262, &tail).answer(success));
            list.add(bare().piece(before).piece_lent(lent, later).answer(success).flag(END));
            let answered = bare().piece(&stream).answer_lent(lent, success, 4, BOUND, 8080);
            let again = answered.answer_lent(262, 1, 6, BOUND, 8080).piece_lent(lent, b"late");
            list.all([answered.flag(END), again]);
        }
        list.add(bare().piece_lent(261, b"").piece_lent(262, b"").piece_lent(0, b"").flag(END));
        list.add(bare().piece_lent(261, b"\x07").piece_lent(0, b"\x07").piece(&stream).flag(END));
    }
}

// 16 ahead of 1; nothing changes.
fn turns(list: &mut Kept) {
    for session in [0, 2, 4, 5, 7, 9].map(|n| sessions().remove(n)) {
        let (end, success, stream) = (session.end.clone(), session.success, session.stream());
        // an answer that is not awaited
        list.add(end.answer(success).answer_lent(0, success, 6, BOUND, 1).piece(&stream).answer(success));
        let (before, later) = stream.split_at(stream.len() / 2);
        list.add(end.piece(before).answer(success).piece(later).answer(success));
        list.add(end.piece(&stream[..1]).answer_lent(261, success, 4, BOUND, 1).flag(END));
        // a delivery, or the end of stream, while one is
        let asked = end.piece(&stream);
        let late = |end: End| end.piece(b"ab").piece_lent(262, b"").piece_lent(261, b"lost").piece_lent(0, b"");
        let tried = late(asked.clone());
        list.all([tried.flag(END), tried.answer_lent(261, success, 4, BOUND, 1).answer(success).piece(b"cd")]);
        // any call to an end that is open or failed
        let again = |case: End| late(case).answer(success).answer_lent(0, 1, 6, BOUND, 1).flag(END);
        list.all([again(asked.answer(success)), again(asked.answer(2)), again(end.piece(&[stream[0], 0]))]);
        list.add(again(end.piece(&[7])));
    }
    let wrong = set(b"u", b"pw").piece(&[greeting(&[2]), credentials(b"u", b"px")].concat());
    list.add(wrong.piece(&connect([5, 1, 0], &FOUR)).answer(0).piece_lent(0, b"lost").flag(END));
}

// An empty piece anywhere in turn.
fn empties(list: &mut Kept) {
    for session in [3, 9].map(|n| sessions().remove(n)) {
        let stream = session.stream();
        let mut all = session.end.piece(b"");
        for b in &stream {
            all = all.piece(&[*b]).piece_lent(262, b"").piece_lent(261, b"");
        }
        list.all([all.flag(END), all.answer(session.success).piece(b"").flag(END), session.end.piece(b"").flag(END)]);
    }
}

// Much behind the last request, and behind a failure.
fn tails(list: &mut Kept) {
    let behind = vec![0xAB; 3000];
    let bare_ends = hexes("050102 0500 09 05010005010000").into_iter().map(|stream| (bare(), stream));
    let ends = [(bare(), good5()), (bare(), good4()), (set(b"u", b"pw"), good4())];
    for (end, stream) in ends.into_iter().chain(bare_ends) {
        list.add(end.piece(&[&stream[..], &behind].concat()).answer(90).piece(&behind[..9]));
        list.add(end.piece(&stream).piece(&behind).flag(END));
    }
    list.add(bare().piece(&[&good5()[..], &vec![7; 65535 - good5().len()]].concat()).answer(0));
}

// ---- the list

pub fn add(list: &mut Kept) {
    let first = list.cases.len();
    list.parts(&[whole, cuts, ends, set_ups, first_bytes, greetings, logins, connects, destinations5, commands4]);
    list.parts(&[user_ids, names4, addresses4, statuses, bounds, outputs, turns, empties, tails]);
    let fill = CASES.saturating_sub(list.cases.len() - first);
    list.random(fill, |r| generate::in_order(b'P', r, 0), |case| case.bytes().len() <= SMALL);
}
