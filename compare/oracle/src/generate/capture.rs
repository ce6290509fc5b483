//! Random cases of request F-10: a recording of the opening's requests and replies, lawful or changed in a few bytes,
//! cut in entries, and some of these broken; in half of the cases a second one, near the first.
use super::session::{self, bound_replies, replies};
use crate::case::*;
use crate::draft::capture;
use crate::draw::Random;
use crate::model::capture::{due, requests};
use crate::model::prepare;

// Bytes in the order of a recording, each with whether it goes to the client.
type Order = Vec<(bool, u8)>;
type Entries = Vec<(bool, Vec<u8>)>;

const MOST: usize = 0x7FFF;

pub fn case(r: &mut Random) -> Case {
    let of = opening(r);
    let mut first = order(r, &of);
    if r.once_in(2) {
        change(r, &mut first);
    }
    let mut captures = vec![written(r, &first, 12)];
    if r.once_in(2) {
        captures.push(second(r, &first));
    }
    Case { kind: Kind::Captures(of, captures), calls: vec![] }
}

// Few that are refused.
fn opening(r: &mut Random) -> Opening {
    let few = r.once_in(16);
    loop {
        let of = session::opening(r).of;
        if few || prepare(&of) == 0 {
            return of;
        }
    }
}

// ---- its bytes

// A sent byte goes as soon as it is due, behind the last reply, or between these.
fn order(r: &mut Random, of: &Opening) -> Order {
    let received = if r.once_in(16) { replies(r, of) } else { bound_replies(r, of, false) };
    let each = requests(of).into_iter().enumerate();
    let dues = each.flat_map(|(number, request)| request.into_iter().map(move |byte| (due(of, number), byte)));
    let mut sent = dues.collect::<Vec<_>>().into_iter().peekable();
    let (late, rate) = (r.once_in(8), r.one_of(&[1, 1, 1, 2, 3, 8, 40]));
    let mut all = vec![];
    for n in 0..=received.len() {
        let last = n == received.len();
        while let Some((_, byte)) = sent.next_if(|(due, _)| *due <= n && (last || !late && r.once_in(rate))) {
            all.push((false, byte));
        }
        all.extend(received.get(n).map(|byte| (true, *byte)));
    }
    all
}

// Where sent bytes begin behind a received one, and where they end.
fn run(r: &mut Random, order: &Order) -> Option<(usize, usize)> {
    let begins: Vec<usize> = (1..order.len()).filter(|at| order[at - 1].0 && !order[*at].0).collect();
    let at = *begins.get(r.below(begins.len().max(1)))?;
    Some((at, at + order[at..].iter().take_while(|byte| !byte.0).count()))
}

// One or two changes: sent bytes ahead of a received one or behind it, bytes dropped, put in, changed, turned round.
fn change(r: &mut Random, order: &mut Order) {
    for _ in 0..1 + r.below(5) / 4 {
        let (at, any) = (r.below(order.len().max(1)), (r.once_in(2), r.byte()));
        match (r.below(16), run(r, order)) {
            (0..=1, Some((begin, _))) => order.swap(begin - 1, begin),
            (2..=3, Some((begin, end))) => order[begin - 1..end].rotate_left(1),
            (4..=5, Some((_, end))) if end < order.len() => order.swap(end - 1, end),
            (6, Some((begin, end))) => {
                let n = 1 + r.below(begin);
                order[begin - n..end].rotate_left(n);
            }
            (7, _) => order.push(any),
            (8, _) => order.insert(at, any),
            (9, _) => order.truncate(at),
            (10..=11, _) if !order.is_empty() => drop(order.remove(at)),
            (12, _) if !order.is_empty() => order[at].0 ^= true,
            (_, _) if !order.is_empty() => order[at].1 = if r.once_in(2) { r.byte() } else { order[at].1 ^ 1 },
            _ => {}
        }
    }
}

// ---- its entries

fn cut(r: &mut Random, order: &Order) -> Entries {
    let (rate, empty) = (r.one_of(&[1, 2, 5, 40, 1000, 1000]), r.once_in(3));
    let mut all: Entries = vec![];
    for (to_client, byte) in order {
        if empty && r.once_in(4) {
            all.push((r.once_in(2), vec![]));
        }
        match all.last_mut() {
            Some((same, bytes)) if same == to_client && bytes.len() < MOST && !r.once_in(rate) => bytes.push(*byte),
            _ => all.push((*to_client, vec![*byte])),
        }
    }
    if empty && r.once_in(2) {
        all.push((r.once_in(2), vec![]));
    }
    all
}

// Broken once in so many times.
fn written(r: &mut Random, order: &Order, once: usize) -> Vec<u8> {
    let entries = cut(r, order);
    if r.once_in(once) { broken(r, entries) } else { capture(&entries) }
}

// Entries that change places, are turned round or grow to the most; headers that say more or less; an end too soon or
// too late.
fn broken(r: &mut Random, mut entries: Entries) -> Vec<u8> {
    let at = r.below(entries.len().max(1));
    match r.below(10) {
        0 if at > 0 => entries.swap(at - 1, at),
        1 if !entries.is_empty() => entries[at].0 ^= true,
        2 if r.once_in(40) && !entries.is_empty() => entries[at].1.resize(MOST, 0),
        _ => {}
    }
    let mut all = capture(&entries);
    let header = capture(&entries[..at.min(entries.len())]).len();
    match r.below(8) {
        0 => all.truncate(r.below(all.len() + 1)),
        1 => all.push(r.byte()),
        2 => all.extend([r.one_of(&[0, 0x80, 0x7F, 0xFF]), r.byte()]),
        3 if header < all.len() => all[header + 1] = all[header + 1].wrapping_add(r.one_of(&[1, 1, 255, 255, 2])),
        4 if header < all.len() => all[header] ^= r.one_of(&[1, 0x40, 0x80]),
        5 => all = r.damaged(all, &[0, 1, 2, 3, 5, 0x7F, 0x80, 0xFF]),
        _ => {}
    }
    all
}

// ---- the second

// The same directions in any order.
fn merged(r: &mut Random, order: &Order) -> Order {
    let (to, from): (Order, Order) = order.iter().partition(|byte| byte.0);
    let (mut to, mut from) = (to.into_iter().peekable(), from.into_iter().peekable());
    let rate = r.one_of(&[1, 2, 3, 20]);
    let mut turn = r.once_in(2);
    let mut all = vec![];
    while to.peek().is_some() || from.peek().is_some() {
        turn ^= r.once_in(rate);
        let next = if turn { to.next() } else { from.next() };
        all.extend(next);
    }
    all
}

fn second(r: &mut Random, first: &Order) -> Vec<u8> {
    let mut order = if r.once_in(2) { merged(r, first) } else { first.clone() };
    match r.below(24) {
        0 => order = vec![],
        1 => order.iter_mut().for_each(|byte| byte.0 ^= true),
        2 => return r.some_bytes(40),
        3..=9 => change(r, &mut order),
        _ => {}
    }
    written(r, &order, 12)
}
