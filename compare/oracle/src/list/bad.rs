//! Frames that hold no case, each rule by itself; a good one behind each kind of them.
use super::{orders, proxy, route};
use crate::case::*;
use crate::draft::*;

// One of each kind, with all that it can have.
fn whole() -> Vec<Case> {
    let text = Case { kind: Kind::Text(b'A', b"192.0.2.7".to_vec()), calls: vec![] };
    let mut session = base(5).flag(CREDENTIALS | LOCAL_LOOKUP | END | TEXT | ATTEMPTS).piece(&[5, 2]);
    (session.user, session.password) = (b"u".to_vec(), b"pw".to_vec());
    session.records = vec![(6, [1; 16]), (4, [2; 16])];
    let route = route::chain("5c 4").piece(&[5, 2]).flag(END | ATTEMPTS);
    let end = proxy::asked().answer(0).flag(END);
    vec![text, session.case(), route.case(), end.case()]
}

fn changed(bytes: &[u8], place: usize, byte: u8) -> Vec<u8> {
    let mut other = bytes.to_vec();
    other[place] = byte;
    other
}

// A case with its calls' number and calls in these bytes' place.
fn calling(case: &Case, calls: &[&[u8]]) -> Vec<u8> {
    let mut bytes = Case { calls: vec![], ..case.clone() }.bytes();
    bytes.truncate(bytes.len() - 2);
    [bytes, (calls.len() as u16).to_be_bytes().to_vec(), calls.concat()].concat()
}

fn kinds() -> Vec<Vec<u8>> {
    let letters = [0, 1, 4, 5, b'B', b'a', b'h', b'u', b's', b'r', b'p', b'X', 255];
    let of = |letter: u8| whole().into_iter().map(move |case| changed(&case.bytes(), 0, letter)).chain([vec![letter]]);
    letters.into_iter().flat_map(of).collect()
}

// At a session, and at each of a route's proxies, those above eight too.
fn versions() -> Vec<Vec<u8>> {
    let mut all = vec![];
    for version in [0, 1, 3, 6, 255] {
        let session = base(5).piece(&[5, 0]).case();
        all.push(changed(&session.bytes(), 1, version));
        for (route, n) in [(route::chain("5 4 5").piece(&[5, 0]), 3), (route::many(9), 9)] {
            for i in 0..n {
                let mut other = route.clone();
                other.proxies[i].version = version;
                all.push(other.case().bytes());
            }
        }
    }
    all
}

fn families() -> Vec<Vec<u8>> {
    let mut all = vec![];
    for family in [0, 1, 3, 5, 7, 255] {
        for i in 0..2 {
            let mut session = base(5);
            session.records = vec![(4, [0; 16]), (6, [0; 16])];
            session.records[i].0 = family;
            all.push(session.case().bytes());
        }
        all.push(proxy::asked().answer_lent(262, 0, family, [0; 16], 80).case().bytes());
    }
    all
}

// Calls that a kind does not have, with the arguments that they have elsewhere.
fn calls() -> Vec<Vec<u8>> {
    let answer = [&[b'a', 4, 0, 0, 4][..], &[0; 16], &[0, 80]].concat();
    let [start, piece, bound]: [&[u8]; 3] = [&[b's', 4, 0], &[b'd', 4, 0, 0, 1, 5], &[b'b', 4, 0]];
    let others: [&[u8]; 8] = [b"w", b"x", b"S", b"D", &[0], &[1], &[255], b" "];
    let mut all = vec![];
    for case in &whole()[1..] {
        let lacks: &[&[u8]] = match case.letter() {
            b'S' => &[&answer],
            b'R' => &[start, bound, &answer],
            _ => &[start, bound, b"t"],
        };
        for call in lacks.iter().chain(&others) {
            all.extend([calling(case, &[call]), calling(case, &[piece, call]), calling(case, &[call, piece])]);
        }
    }
    all
}

// Every start of a case; one with more calls than there are.
fn short() -> Vec<Vec<u8>> {
    let prefixes = |case: Case| (1..case.bytes().len()).map(move |n| case.bytes()[..n].to_vec());
    let more = |case: &Case| {
        let mut bytes = calling(case, &[b"e", b"e"]);
        bytes.pop();
        bytes
    };
    whole().into_iter().flat_map(prefixes).chain(whole()[1..].iter().map(more)).collect()
}

// A byte, a call or a whole case more than there should be.
fn left_over() -> Vec<Vec<u8>> {
    let mut all = vec![];
    for case in whole() {
        let bytes = case.bytes();
        for more in [&[0][..], &[255], b"e", b"t", &[0, 0], &bytes] {
            all.push([&bytes, more].concat());
        }
    }
    let fewer = |case: &Case| {
        let n = Case { calls: vec![], ..case.clone() }.bytes().len();
        changed(&case.bytes(), n - 1, case.calls.len() as u8 - 1)
    };
    all.extend(whole()[1..].iter().map(fewer));
    all
}

fn records() -> Vec<Vec<u8>> {
    let many = |n: usize| {
        let mut case = base(5).flag(LOCAL_LOOKUP).piece(&[5, 0]);
        case.records = vec![(6, [1; 16]); n];
        case.case().bytes()
    };
    [9, 10, 255].map(many).to_vec()
}

pub fn frames() -> Vec<Vec<u8>> {
    let good = orders::good().bytes();
    let parts = [vec![vec![]], kinds(), versions(), families(), calls(), short(), left_over(), records()];
    parts.into_iter().flat_map(|part| [part, vec![good.clone()]].concat()).collect()
}

// Of captures: other numbers of them, each start of a case, bytes left over, other versions, families, numbers of
// records and kinds; and a good frame.
pub fn captures() -> Vec<Vec<u8>> {
    let opening = Opening { records: vec![(6, [1; 16]), (4, [2; 16])], ..base(5).of };
    let of = |captures: &[&[u8]]| {
        let captures = captures.iter().map(|capture| capture.to_vec()).collect();
        Case { kind: Kind::Captures(opening.clone(), captures), calls: vec![] }.bytes()
    };
    let texts: [&[u8]; 4] = [&[0, 1, 5], &[0x80, 1, 5], &[], &[]];
    let number = of(&[]).len() - 1;
    let mut all = vec![of(&[]), of(&texts[..3]), of(&texts), of(&[texts[2]; 255])];
    for n in [1, 2] {
        let bytes = of(&texts[..n]);
        all.extend([0, 1, 2, 3, 4, 255].iter().filter(|m| **m != n as u8).map(|m| changed(&bytes, number, *m)));
        let first = if n == 1 { 1 } else { number + 1 };
        all.extend((first..bytes.len()).map(|n| bytes[..n].to_vec()));
        all.extend([&[0][..], &[255], &[0, 0], b"e", &bytes].map(|more| [&bytes, more].concat()));
        let family = number - 17;
        all.extend(
            [(1, 3), (1, 6), (family, 5), (family, 0), (family - 18, 0), (family - 18, 9)]
                .map(|(place, byte)| changed(&bytes, place, byte)),
        );
        all.extend([b'c', b'S', b'E', b'P'].map(|kind| changed(&bytes, 0, kind)));
    }
    all.push(orders::good().bytes());
    all
}
