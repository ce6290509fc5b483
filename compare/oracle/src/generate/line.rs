//! Random proxy lines, request F-9: lawful ones, some with a part at or above its limit, and what is nearly one.
use super::texts::long;
use crate::case::{Case, Kind};
use crate::draw::Random;

const FREE: &[u8] = b"abcxyzABCXYZ019-._~";
const HOST: &[u8] = b"abcxyzABCXYZ01289-._~!\"#$&'()*+,;<=>?\\^`{|}";
// Put in where they may not stand.
const SIGNS: &[u8] = b"::::////@@%%[]..0000123456789abcfABCFghsz-_~!?#\\ \n\t\0\x1F\x7F\x80\xFF";
// Split by bars.
const PORTS: &str =
    "|00|01|000|0443|65534|65535|65536|65537|65540|65600|66000|70000|99999|100000|655350|655360|4294967297";

pub fn case(r: &mut Random) -> Case {
    let (scheme, rest) = line(r);
    let behind = |rest: Vec<u8>| [scheme, &rest].concat();
    let text = match r.below(16) {
        0..=4 => behind(rest),
        5..=9 => behind(r.damaged(rest, SIGNS)),
        10..=12 => behind(cut(r, rest)),
        13 | 14 => behind(noise(r)),
        _ => anywhere(r, behind(rest)),
    };
    Case { kind: Kind::Text(b'L', long(r, text)), calls: vec![] }
}

// ---- a line: its scheme, and the rest

fn line(r: &mut Random) -> (&'static [u8], Vec<u8>) {
    let five = !r.once_in(3);
    let scheme: &[u8] = match (five, r.once_in(2)) {
        (false, false) => b"socks4://",
        (false, true) => b"socks4a://",
        (true, false) => b"socks5://",
        (true, true) => b"socks5h://",
    };
    let with = r.once_in(if five { 2 } else { 12 });
    let credentials = if with { [&text(r)[..], b":", &text(r), b"@"].concat() } else { vec![] };
    (scheme, [&credentials, &host(r)[..], b":", &port(r)].concat())
}

// Short ones mostly, and around the limit.
fn length(r: &mut Random) -> usize {
    match r.below(40) {
        0 => r.one_of(&[253, 254, 255, 255, 255, 256, 256, 257]),
        1 => r.below(300),
        _ => r.below(9),
    }
}

// A user or a password.
fn text(r: &mut Random) -> Vec<u8> {
    let (n, escapes) = (length(r), r.one_of(&[0, 0, 1, 2, 4]));
    let mut text = vec![];
    for _ in 0..n {
        if r.below(4) < escapes {
            text.push(b'%');
            text.extend(r.text(2, b"0123456789abcdefABCDEF"));
        } else {
            text.push(r.one_of(FREE));
        }
    }
    text
}

fn host(r: &mut Random) -> Vec<u8> {
    match r.below(8) {
        0..=2 => [b"[", six(r).as_bytes(), b"]"].concat(),
        3 => r.ipv4().into_bytes(),
        4 | 5 => r.one_of(&[&b"h"[..], b"localhost", b"proxy.example"]).to_vec(),
        6 => {
            let n = length(r).max(1);
            r.text(n, FREE)
        }
        _ => {
            let n = length(r);
            r.text(n, HOST)
        }
    }
}

fn port(r: &mut Random) -> Vec<u8> {
    let ports: Vec<&str> = PORTS.split('|').collect();
    if r.once_in(8) { r.one_of(&ports).into() } else { r.port().to_string().into() }
}

// An IPv6 text of any shape; now and then only nearly one.
fn six(r: &mut Random) -> String {
    if r.once_in(4) {
        return r.ipv6();
    }
    let n = if r.once_in(3) { 8 } else { r.below(8) };
    let at = r.below(n + 1);
    let group = |r: &mut Random| {
        let n = 1 + r.below(4);
        String::from_utf8(r.text(n, b"00123456789abcdefABCDEF")).expect("digits")
    };
    let mut groups: Vec<String> = (0..n).map(|_| group(r)).collect();
    let before = if n < 8 { groups.drain(..at).collect::<Vec<_>>().join(":") + "::" } else { String::new() };
    if groups.len() >= 2 && r.once_in(3) {
        groups.truncate(groups.len() - 2);
        groups.push(r.four().map(|n| n.to_string()).join("."));
    }
    before + &groups.join(":")
}

// ---- what is nearly one

// Cut, and perhaps other bytes in place of what was behind.
fn cut(r: &mut Random, mut rest: Vec<u8>) -> Vec<u8> {
    rest.truncate(r.below(rest.len() + 1));
    let n = r.below(4);
    rest.extend(r.text(n, SIGNS));
    rest
}

// Few bytes of few kinds, in brackets or not.
fn noise(r: &mut Random) -> Vec<u8> {
    let n = r.below(24);
    match r.below(3) {
        0 => [b"[", &r.text(n, b"0125a::::..]")[..]].concat(),
        1 => r.text(n, b"a1%0::@@[]"),
        _ => r.text(n, SIGNS),
    }
}

// The scheme changed too, or cut, or in capitals; bytes ahead of the line; any bytes.
fn anywhere(r: &mut Random, mut text: Vec<u8>) -> Vec<u8> {
    match r.below(8) {
        0..=3 => r.damaged(text, b"socksah45:/SOCKS"),
        4 => {
            text.truncate(r.below(12));
            text
        }
        5 => {
            let at = r.below(text.len());
            text[at].make_ascii_uppercase();
            text
        }
        6 => [r.one_of(&[&b" "[..], b"\n", b"http://", b"s", b"socks5:", b"\xEF\xBB\xBF"]), &text[..]].concat(),
        _ => r.some_bytes(40),
    }
}
