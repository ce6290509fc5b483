//! Random cases, each by its kind, seed and number; how streams arrive, and calls in odd orders.
use crate::case::*;
use crate::draw::Random;

mod capture;
mod ending;
mod line;
mod proxy;
mod route;
pub mod session;
mod texts;

// Enough and too little.
pub type Lent<'a> = (&'a [u16], &'a [u16]);

// The kinds by a letter; those of texts by T.
pub const KINDS: [(&str, u8); 7] =
    [("texts", b'T'), ("run", b'S'), ("route", b'R'), ("proxy", b'P'), ("endings", b'E'), ("recordings", b'C'), ("lines", b'L')];

pub fn case(kind: u8, seed: u64, number: u64) -> Case {
    let mut r = Random::new(seed, number);
    let mut case = in_order(kind, &mut r, number);
    if has_calls(kind) && r.once_in(2) {
        reorder(&mut r, &mut case);
    }
    case.fit()
}

pub fn has_calls(kind: u8) -> bool {
    !matches!(kind, b'T' | b'E' | b'C' | b'L')
}

// A session that is started once, ahead of its deliveries, and told of at last; ends and routes likewise.
pub fn in_order(kind: u8, r: &mut Random, number: u64) -> Case {
    match kind {
        b'T' => texts::case(r, number),
        b'S' => session::case(r).case(),
        b'R' => route::case(r).case(),
        b'E' => ending::case(r),
        b'C' => capture::case(r),
        b'L' => line::case(r),
        _ => proxy::case(r).case(),
    }
}

// ---- calls in odd orders

const LENTS: [u16; 20] =
    [0, 1, 261, 262, 263, 777, 778, 779, 1023, 1024, 1025, 2048, 4096, 8191, 8192, 9215, 9216, 9216, 9217, 65535];

// Near the start as often as anywhere.
fn place(r: &mut Random, calls: &[Call]) -> usize {
    let most = if r.once_in(2) { calls.len().min(4) } else { calls.len() };
    r.below(most + 1)
}

// A call or a few moved, left out, said again, or put in.
fn reorder(r: &mut Random, case: &mut Case) {
    let letter = case.letter();
    let calls = &mut case.calls;
    if letter == b'S' && r.once_in(3) {
        let start = calls.remove(0);
        if !r.once_in(4) {
            calls.insert(place(r, calls), start);
        }
    }
    for _ in 0..1 + r.below(4) {
        let at = place(r, calls).min(calls.len().saturating_sub(1));
        let to = place(r, calls);
        match r.below(8) {
            0 if !calls.is_empty() => drop(calls.remove(at)),
            1 if !calls.is_empty() => calls.insert(to, calls[at].clone()),
            2 if !calls.is_empty() => {
                let call = calls.remove(at);
                calls.insert(to.min(calls.len()), call);
            }
            _ => calls.insert(to, any(r, letter)),
        }
    }
}

// A call that this kind has; ends of stream are fewer, for they settle most.
fn any(r: &mut Random, kind: u8) -> Call {
    let lent = r.one_of(&LENTS);
    let letters: &[u8] = match kind {
        b'S' => b"sssddebbbbttt",
        b'R' => b"ddettt",
        _ => b"dddeaaa",
    };
    match r.one_of(letters) {
        b's' => Call::Start(lent),
        b'd' => {
            let stream =
                r.one_of(&[&b""[..], b"", b"\x05", b"\x05\x00", b"\x05\x02\x01\x00", b"\x00", b"\x04\x01", b"more"]);
            Call::Piece(lent, if r.once_in(3) { r.some_bytes(20) } else { stream.to_vec() })
        }
        b'e' => Call::End,
        b'b' => Call::Bound(if r.once_in(2) { r.below(48) as u16 } else { lent }),
        b't' => Call::Attempts,
        _ => {
            let (version, short) = (r.one_of(&[4, 5]), r.once_in(3));
            proxy::answer(r, version, short)
        }
    }
}

// ---- what is sent

pub fn stream(r: &mut Random, mut stream: Vec<u8>) -> Vec<u8> {
    if r.once_in(6) {
        stream = r.damaged(stream, &[0, 1, 2, 3, 4, 5, 8, 9, 0x5A, 0x5B, 0x80, 0xFF]);
    }
    match r.below(16) {
        0 => stream = r.some_bytes(400),
        1 => stream.extend(stream.clone()),
        2..=5 => {
            stream.truncate(r.below(stream.len() + 1));
            return stream;
        }
        _ => {}
    }
    let behind = match r.below(1000) {
        0 => 65535,
        1..=20 => r.below(3000),
        21..=40 => r.one_of(&[255, 261, 262, 512, 513, 514, 1026]),
        41..=500 => r.below(12),
        _ => 0,
    };
    stream.extend(r.bytes(behind));
    stream
}

// ---- how it arrives

pub fn cuts(r: &mut Random, mut stream: Vec<u8>) -> Vec<Vec<u8>> {
    let way = r.below(8);
    let most = 1 + r.below(40);
    let mut pieces = vec![];
    while !stream.is_empty() {
        let n = match way {
            0..=2 if pieces.len() < 600 => 1,
            3 | 4 if pieces.len() < 600 => 1 + r.below(most),
            5 => 1 + r.below(stream.len()),
            6 => r.one_of(&[1, 2, 3, 5, 7, 10, 255, 261, 262, 263, 512, 513, 514]),
            _ => stream.len(),
        };
        let later = stream.split_off(n.min(stream.len()).min(65535));
        pieces.push(std::mem::replace(&mut stream, later));
    }
    pieces
}

pub fn delivered(r: &mut Random, lent: Lent, noisy: bool, pieces: Vec<Vec<u8>>) -> Vec<Call> {
    let mut all = vec![];
    for piece in pieces {
        if noisy && r.once_in(3) {
            all.push(noise(r, lent, &piece));
        }
        all.push(Call::Piece(r.one_of(lent.0), piece));
    }
    if noisy {
        all.push(noise(r, lent, b"more"));
    }
    all
}

// An empty piece, or one that comes with too little output: the next one tried before, or another.
fn noise(r: &mut Random, (enough, short): Lent, piece: &[u8]) -> Call {
    match r.below(4) {
        0 => Call::Piece(r.one_of(enough), vec![]),
        1 => Call::Piece(r.one_of(short), vec![]),
        2 => Call::Piece(r.one_of(short), piece.to_vec()),
        _ => Call::Piece(r.one_of(short), r.some_bytes(20)),
    }
}
