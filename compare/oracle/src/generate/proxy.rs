//! Random cases of the proxy's end: most hand out a destination, some meet each of the refusals.
use super::session::credential;
use super::{Lent, cuts, delivered, stream};
use crate::case::*;
use crate::draft::*;
use crate::draw::Random;
use crate::model::{self, Outcome};
use crate::requests::*;

const LENT: Lent<'static> = (&[262, 262, 262, 263, 778, 2047, 2048, 2049, 65535], &[0, 1, 100, 260, 261, 261]);
const METHODS: [usize; 10] = [0, 1, 2, 2, 3, 3, 4, 100, 254, 255];
const NAMES: [usize; 10] = [0, 1, 1, 2, 3, 11, 100, 253, 254, 255];
const USER_IDS: [usize; 12] = [1, 2, 3, 8, 20, 100, 253, 254, 255, 255, 256, 257];
const NAMES4: [usize; 14] = [0, 1, 1, 2, 3, 11, 100, 255, 256, 1013, 1014, 1014, 1015, 1016];
const STATUSES: [u8; 18] = [0, 1, 2, 3, 4, 5, 6, 7, 8, 9, 89, 90, 91, 92, 93, 94, 128, 255];

pub fn case(r: &mut Random) -> Draft<SetUp> {
    let mut case = set_up(r);
    let requests = requests(r, &case);
    let version = requests[0];
    let stream = stream(r, requests);
    let noisy = r.once_in(4);
    let pieces = cuts(r, stream);
    case.calls = delivered(r, LENT, noisy, pieces);
    answers(r, &mut case, version);
    case
}

fn set_up(r: &mut Random) -> Draft<SetUp> {
    let mut flags = [CREDENTIALS, END].into_iter().filter(|_| r.once_in(2)).sum();
    if r.once_in(40) {
        flags |= r.byte() & !(CREDENTIALS | END);
    }
    // without the flag mostly none
    let any = flags & CREDENTIALS != 0 || r.once_in(8);
    let [user, password] = [(); 2].map(|()| if any { credential(r) } else { vec![] });
    Draft::new(SetUp { flags: 0, user, password }).flag(flags)
}

// ---- what the client sends

// The byte that should stand there, or once in n times another.
fn mostly(r: &mut Random, byte: u8, n: usize) -> u8 {
    if !r.once_in(n) {
        byte
    } else if r.once_in(2) {
        r.byte()
    } else {
        r.one_of(&[0, 1, 2, 3, 4, 5, 6, 255])
    }
}

fn requests(r: &mut Random, case: &SetUp) -> Vec<u8> {
    let v4 = r.once_in(if case.has(CREDENTIALS) { 8 } else { 2 });
    if v4 { requests4(r) } else { requests5(r, case) }
}

fn requests5(r: &mut Random, case: &SetUp) -> Vec<u8> {
    let right = if case.has(CREDENTIALS) { 2 } else { 0 };
    let n = if r.once_in(2) { 1 } else { r.one_of(&METHODS) };
    let mut methods = r.bytes(n);
    if n > 0 && !r.once_in(12) {
        methods[r.below(n)] = right;
    }
    let mut stream = greeting(&methods);
    stream[0] = mostly(r, 5, 60);
    if case.has(CREDENTIALS) != r.once_in(40) {
        stream.extend(credentials_for(r, case));
    }
    let head = [mostly(r, 5, 60), mostly(r, 1, 8), mostly(r, 0, 40)];
    let address = match r.below(24) {
        0 => [&[r.byte()], &r.some_bytes(20)[..]].concat(),
        1..=6 => [&[1], &r.four()[..]].concat(),
        7..=12 => [&[4], &r.six()[..]].concat(),
        _ => {
            let n = if r.once_in(2) { r.one_of(&NAMES) } else { 1 + r.below(40) };
            named(&name(r, n))
        }
    };
    stream.extend(connect(head, &address));
    let last = stream.len() - 2;
    stream.splice(last.., r.port().to_be_bytes());
    stream
}

// Those of the set-up, or nearly.
fn credentials_for(r: &mut Random, case: &SetUp) -> Vec<u8> {
    let (mut user, mut password) = (case.user.clone(), case.password.clone());
    if r.once_in(8) {
        let wrong = if r.once_in(2) { &mut user } else { &mut password };
        *wrong = if r.once_in(4) { credential(r) } else { r.damaged(wrong.clone(), b"aup\0") };
    }
    if r.once_in(40) {
        std::mem::swap(&mut user, &mut password);
    }
    user.truncate(255);
    password.truncate(255);
    let mut request = credentials(&user, &password);
    request[0] = mostly(r, 1, 30);
    request
}

// Mostly one that our client would send.
fn name(r: &mut Random, n: usize) -> Vec<u8> {
    if r.once_in(4) { r.bytes(n) } else { r.text(n, b"abcxyz0129-._[]:%") }
}

fn requests4(r: &mut Random) -> Vec<u8> {
    let address = match r.below(8) {
        0..=2 => [0, 0, 0, 255],
        3 | 4 => r.near_zero(),
        _ => r.four(),
    };
    let closed = |text: Vec<u8>| text.into_iter().map(|b| b.max(1)).collect::<Vec<u8>>();
    let user_id = if r.once_in(2) { vec![] } else { user_id(r) };
    let n = if r.once_in(3) { r.one_of(&NAMES4) } else { 1 + r.below(40) };
    let name = matches!(address, [0, 0, 0, 1..=255]).then(|| closed(name(r, n)));
    let mut stream = request4(mostly(r, 1, 8), address, &closed(user_id), name.as_deref());
    stream[0] = mostly(r, 4, 60);
    stream.splice(2..4, r.port().to_be_bytes());
    stream
}

fn user_id(r: &mut Random) -> Vec<u8> {
    let n = r.one_of(&USER_IDS);
    if r.once_in(2) { r.bytes(n) } else { vec![b'i'; n] }
}

// ---- how it arrives

// Mostly one, behind the delivery that hands out the destination or behind them all; others out of turn.
fn answers(r: &mut Random, case: &mut Draft<SetUp>, version: u8) {
    let line = model::line(&Case { kind: Kind::End(case.of.clone()), calls: case.calls.clone() });
    let due = line.calls.iter().rposition(|entry| entry.number == 0).map_or(0, |last| last + 1);
    if line.outcome == Outcome::Asked && r.once_in(3) {
        case.calls.truncate(due);
    }
    if !r.once_in(8) {
        let at = if r.once_in(2) { due } else { case.calls.len() };
        case.calls.insert(at, answer(r, version, false));
        if r.once_in(8) {
            case.calls.insert(at, answer(r, version, true));
        }
    }
    while r.once_in(6) {
        let at = r.below(case.calls.len() + 1);
        let short = r.once_in(3);
        case.calls.insert(at, answer(r, version, short));
    }
    if r.once_in(4) {
        let piece = r.some_bytes(8);
        let late = Call::Piece(r.one_of(LENT.0), piece);
        case.calls.push(late);
    }
}

pub fn answer(r: &mut Random, version: u8, short: bool) -> Call {
    let status = match r.below(4) {
        0 => r.one_of(&STATUSES),
        1 if version == 4 => r.one_of(&[91, 92, 93]),
        1 => r.one_of(&[1, 2, 3, 4, 5, 6, 7, 8]),
        _ => {
            if version == 4 {
                90
            } else {
                0
            }
        }
    };
    let bound = (r.one_of(&[4, 6]), if r.once_in(2) { r.six() } else { r.bytes(16).try_into().unwrap() });
    let lent = if short { r.one_of(LENT.1) } else { r.one_of(LENT.0) };
    Call::Answer(lent, Answer { status, bound, port: r.port() })
}
