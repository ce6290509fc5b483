//! Random sessions over document 01's whole domain, its boundaries, and somewhat beyond.
use super::{Lent, cuts, delivered, stream};
use crate::case::*;
use crate::draft::*;
use crate::draw::{EDGES, Random};
use crate::model;

// Output lent, enough and too little: to any v5 call, to a v4 start, to a v4 delivery.
const CALL5: Lent<'static> =
    (&[778, 778, 779, 1024, 1025, 2047, 2048, 2049, 65535], &[0, 1, 261, 262, 263, 776, 777, 777]);
const START4: Lent<'static> = (&[1024, 1025, 2047, 2048, 2049, 65535], &[0, 262, 777, 778, 1022, 1023, 1023]);
const DELIVERY4: Lent<'static> =
    (&[262, 262, 263, 777, 778, 1024, 2047, 2048, 2049, 65535], &[0, 1, 100, 260, 261, 261]);
const NAMES: [usize; 18] = [0, 1, 2, 3, 11, 50, 100, 200, 251, 252, 253, 254, 255, 256, 257, 257, 300, 1000];
const LONG_NAMES: [usize; 6] = [1013, 1014, 1015, 1016, 1017, 5000];
const CREDENTIALS_OF: [usize; 20] =
    [0, 0, 1, 2, 3, 8, 20, 120, 121, 122, 123, 124, 125, 130, 246, 247, 253, 254, 255, 256];

// Text buffers lent, whatever the text's length.
const TEXTS: [u16; 12] = [0, 1, 2, 47, 48, 260, 261, 262, 2047, 2048, 2049, 65535];

// Most of them ask for the text or for the attempts.
pub fn case(r: &mut Random) -> Draft<Opening> {
    let mut case = textual(r);
    if r.once_in(2) {
        case.last |= ATTEMPTS;
    }
    case
}

// The same, but for the attempts.
pub fn textual(r: &mut Random) -> Draft<Opening> {
    let mut case = plain(r);
    if r.once_in(2) {
        ask(r, &mut case);
    }
    case
}

// A case that asks for neither.
pub fn plain(r: &mut Random) -> Draft<Opening> {
    let mut case = opening(r);
    if case.has(CREDENTIALS) && r.once_in(3) {
        near_its_buffer(r, &mut case);
    } else if case.version == 5 && r.once_in(16) {
        at_their_longest(r, &mut case);
    }
    let replies = replies(r, &case);
    arrives(r, &mut case, replies);
    case
}

fn arrives(r: &mut Random, case: &mut Draft<Opening>, replies: Vec<u8>) {
    let stream = stream(r, replies);
    let lent = if case.version == 4 { DELIVERY4 } else { CALL5 };
    let noisy = r.once_in(4);
    let pieces = cuts(r, stream);
    case.calls = delivered(r, lent, noisy, pieces);
}

// The text too, with a buffer near its length; most replies are made anew, so that more of them open a session.
fn ask(r: &mut Random, case: &mut Draft<Opening>) {
    case.last |= TEXT;
    if !r.once_in(4) {
        let fails = r.once_in(8);
        let replies = bound_replies(r, case, fails);
        arrives(r, case, replies);
    }
    case.text_lent = u16::MAX;
    let told = model::line(&case.clone().case()).calls.pop().and_then(|entry| entry.text);
    let n = told.map_or(0, |text| text.len() as u16);
    let near = r.one_of(&[n, n, n, n.saturating_sub(1), n.saturating_sub(1), n + 1]);
    case.text_lent = if r.once_in(3) { r.one_of(&TEXTS) } else { near };
}

pub fn opening(r: &mut Random) -> Draft<Opening> {
    let version = if r.once_in(3) { 4 } else { 5 };
    let (enough, short) = if version == 4 { START4 } else { CALL5 };
    let n = r.one_of(&[0, 1, 1, 2, 3, 5, 7, 8]);
    let (flags, port) = (flags(r), r.one_of(&[0, 1, 80, 255, 256, 443, 443, 65535]));
    let lent = if r.once_in(12) { r.one_of(short) } else { r.one_of(enough) };
    let (host, user, password) = (host(r, version), credential(r), credential(r));
    let records = (0..n).map(|_| record(r)).collect();
    Draft::new(Opening { version, flags: 0, port, host, user, password, records }).lent(lent).flag(flags)
}

fn flags(r: &mut Random) -> u8 {
    let mut flags = if r.once_in(30) { 0 } else { PORT };
    for flag in [CREDENTIALS, LOCAL_LOOKUP, OPTIMISTIC, END] {
        if r.once_in(if flag == LOCAL_LOOKUP { 4 } else { 2 }) {
            flags |= flag;
        }
    }
    flags
}

fn record(r: &mut Random) -> Record {
    let mut address: [u8; 16] = if r.once_in(8) { [0; 16] } else { r.bytes(16).try_into().unwrap() };
    if r.once_in(4) {
        address[..4].copy_from_slice(&r.near_zero());
    }
    (r.one_of(&[4, 6, 6]), address)
}

fn name(r: &mut Random, version: u8) -> Vec<u8> {
    let n = match r.below(400) {
        0 => r.below(65534),
        1 => 65533,
        2..=99 if version == 4 => r.one_of(&LONG_NAMES),
        2..=199 => r.one_of(&NAMES),
        _ => 1 + r.below(40),
    };
    let any: Vec<u8> = (0x21..=0x7E).collect();
    let alphabet: &[u8] = if r.once_in(4) { &any } else { b"abcxyz0129-._" };
    r.text(n, alphabet)
}

pub fn host(r: &mut Random, version: u8) -> Vec<u8> {
    let mut host = match r.below(16) {
        0..=2 => r.ipv4().into_bytes(),
        3..=5 => r.ipv6().into_bytes(),
        6 | 7 => {
            let text = if r.once_in(2) { r.ipv4() } else { r.ipv6() };
            r.damaged(text.into_bytes(), b"0123456789abcdefABCDEFg:::...[]%~!")
        }
        8 => {
            let n = r.below(5);
            r.text(n, b"[]a")
        }
        _ => name(r, version),
    };
    if !host.is_empty() && r.once_in(16) {
        let at = r.below(host.len());
        host[at] = r.one_of(&[0x00, 0x0A, 0x20, 0x21, 0x7E, 0x7F, 0x80, 0xC3, 0xFF]);
    }
    match r.below(16) {
        0..=2 => [b"[", &host[..], b"]"].concat(),
        3 => [b"[", &host[..]].concat(),
        4 => [&host[..], b"]"].concat(),
        _ => host,
    }
}

pub fn credential(r: &mut Random) -> Vec<u8> {
    let n = match r.below(1000) {
        0 => 65535,
        1..=5 => r.below(1000),
        6..=500 => r.one_of(&CREDENTIALS_OF),
        _ => r.below(40),
    };
    match r.below(40) {
        0 => r.bytes(n),
        1..=10 => r.utf8(n),
        _ => r.text(n, b"user:PASS 09\0"),
    }
}

// All requests together as long as the original's send buffer, or a little below or above.
fn near_its_buffer(r: &mut Random, case: &mut Draft<Opening>) {
    let others = 3 + 3 + model::connect(case).len();
    let wanted = r.one_of(&[260usize, 261, 262, 262, 263, 263, 264, 265]);
    let Some(most) = wanted.checked_sub(others) else {
        return;
    };
    let user = r.below(most + 1).min(255);
    case.user = r.utf8(user);
    case.password = r.utf8((most - user).min(255));
}

// A name, a user and a password of 255 bytes, or a few less.
fn at_their_longest(r: &mut Random, case: &mut Draft<Opening>) {
    let [name, user, password] = [(); 3].map(|()| r.one_of(&[252, 253, 254, 254, 255, 255, 255]));
    case.host = r.text(name, b"abcxyz0129-._");
    case.user = r.utf8(user);
    case.password = r.utf8(password);
}

// ---- what the proxy sends

pub fn replies(r: &mut Random, case: &Opening) -> Vec<u8> {
    if case.version == 4 { reply4(r) } else { replies5(r, case) }
}

fn reply4(r: &mut Random) -> Vec<u8> {
    let first = if r.once_in(20) { r.one_of(&[1, 4, 5, 255]) } else { 0 };
    let code = if r.once_in(2) { 90 } else { r.one_of(&[0, 89, 91, 92, 93, 94, 255]) };
    [&[first, code], &r.bytes(6)[..]].concat()
}

fn replies5(r: &mut Random, case: &Opening) -> Vec<u8> {
    let credentials = case.has(CREDENTIALS);
    let right = if credentials { 2 } else { 0 };
    let method = if r.once_in(12) { r.one_of(&[0, 1, 2, 3, 0x7F, 0x80, 0xFE, 0xFF]) } else { right };
    let mut stream = vec![if r.once_in(60) { r.byte() } else { 5 }, method];
    if credentials {
        let verdict = if r.once_in(10) { r.one_of(&[1, 2, 7, 0x80, 0xFF]) } else { 0 };
        stream.extend([if r.once_in(40) { r.byte() } else { 1 }, verdict]);
    }
    stream.extend(connect_reply(r));
    stream
}

fn connect_reply(r: &mut Random) -> Vec<u8> {
    let status = if r.once_in(2) { 0 } else { r.one_of(&[1, 1, 2, 2, 3, 3, 4, 4, 5, 5, 6, 6, 7, 7, 8, 8, 9, 255]) };
    let reserved = if r.once_in(30) { r.one_of(&[1, 255]) } else { 0 };
    let kind = if r.once_in(20) { r.one_of(&[0, 2, 5, 6, 255]) } else { r.one_of(&[1, 3, 3, 3, 4]) };
    let start = [if r.once_in(60) { r.byte() } else { 5 }, status, reserved, kind];
    let address = match kind {
        1 => r.bytes(4),
        4 => r.bytes(16),
        _ => bound_name(r),
    };
    [&start, &address[..], &r.bytes(2)].concat()
}

fn bound_name(r: &mut Random) -> Vec<u8> {
    let n = if r.once_in(3) { r.one_of(&[0, 1, 2, 3, 4, 253, 254, 255]) } else { 1 + r.below(20) };
    let text = match r.below(8) {
        0..=2 => r.text(n, b"abc.019-"),
        3..=5 => r.utf8(n),
        6 => r.text(n, &EDGES),
        _ => {
            let text = r.utf8(n);
            r.damaged(text, &EDGES)
        }
    };
    let text = &text[..text.len().min(255)];
    [&[text.len() as u8], text].concat()
}

// Replies as they should be, but for a status if they are to fail, with addresses at the edges of their texts.
pub fn bound_replies(r: &mut Random, case: &Opening, fails: bool) -> Vec<u8> {
    let port = r.port().to_be_bytes();
    if case.version == 4 {
        return [&[0, if fails { 91 } else { 90 }], &port[..], &r.four()].concat();
    }
    let start: &[u8] = if case.has(CREDENTIALS) { &[5, 2, 1, 0] } else { &[5, 0] };
    let address = match r.below(4) {
        0 => [&[1], &r.four()[..]].concat(),
        1 => {
            let n = if r.once_in(2) { r.one_of(&[1, 2, 254, 255]) } else { 1 + r.below(255) };
            let name = if r.once_in(2) { r.utf8(n) } else { r.text(n, b"abc.019-:[]") };
            [&[3, name.len() as u8], &name[..]].concat()
        }
        _ => [&[4], &r.six()[..]].concat(),
    };
    [start, &[5, u8::from(fails), 0], &address, &port].concat()
}
