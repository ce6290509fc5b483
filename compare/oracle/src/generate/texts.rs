//! Random texts for the kinds A, U and H in turn: addresses, UTF-8, hosts, and what is nearly one of them.
use crate::case::{Case, Kind, MOST_BYTES};
use crate::draw::{EDGES, Random};

// The longest text of a case.
const LONGEST: usize = MOST_BYTES - 3;

pub fn case(r: &mut Random, number: u64) -> Case {
    let letter = [b'A', b'U', b'H'][(number % 3) as usize];
    let text = match letter {
        b'A' => address(r),
        b'U' => utf8(r),
        _ => host(r),
    };
    Case { kind: Kind::Text(letter, long(r, text)), calls: vec![] }
}

fn some(r: &mut Random, most: usize, alphabet: &[u8]) -> Vec<u8> {
    let n = r.below(most + 1);
    if alphabet.is_empty() { r.bytes(n) } else { r.text(n, alphabet) }
}

fn address(r: &mut Random) -> Vec<u8> {
    let text = if r.once_in(3) { r.ipv4() } else { r.ipv6() }.into_bytes();
    match r.below(10) {
        0..=4 => text,
        5..=7 => r.damaged(text, b"0123456789abcdefABCDEFg:::...[]% "),
        8 => some(r, 24, b"01a:."),
        _ => some(r, 24, b""),
    }
}

fn utf8(r: &mut Random) -> Vec<u8> {
    let n = r.below(30);
    let mut text = r.utf8(n);
    match r.below(10) {
        0..=3 => {}
        4..=6 => text = r.damaged(text, &EDGES),
        7 => text = some(r, 6, &EDGES),
        8 => text = some(r, 4, b""),
        _ => text.truncate(r.below(n + 1)),
    }
    text
}

fn host(r: &mut Random) -> Vec<u8> {
    let text = match r.below(3) {
        0 => address(r),
        1 => utf8(r),
        _ => some(r, 6, b"[]a"),
    };
    match r.below(4) {
        0 => text,
        1 => [b"[", &text[..], b"]"].concat(),
        2 => [b"[", &text[..]].concat(),
        _ => [&text[..], b"]"].concat(),
    }
}

// Now and then a long text: this one again and again, up to the longest that a case can hold.
pub fn long(r: &mut Random, text: Vec<u8>) -> Vec<u8> {
    if text.is_empty() || !r.once_in(2000) {
        return text;
    }
    let most = if r.once_in(4) { LONGEST } else { r.below(LONGEST + 1) };
    text.iter().copied().cycle().take(most / text.len() * text.len()).collect()
}
