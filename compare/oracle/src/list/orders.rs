//! Calls in every order: each row of up to three, alone and behind the calls that open, fail or end; text and attempts
//! at every place.
use super::session::{base_cases, good as replies, unprepared};
use super::{Kept, proxy, route};
use crate::case::*;
use crate::draft::*;
use crate::model::{delivery_asks, route_asks, start_asks};

// A case that is told in one letter.
pub fn good() -> Case {
    Case { kind: Kind::Text(b'U', b"good".to_vec()), calls: vec![] }
}

// All rows of so many of these calls, behind the first ones.
fn rows(list: &mut Kept, kind: &Kind, first: &[Call], of: &[Call], most: usize) {
    list.put(Case { kind: kind.clone(), calls: first.to_vec() });
    if most > 0 {
        of.iter().for_each(|call| rows(list, kind, &[first, std::slice::from_ref(call)].concat(), of, most - 1));
    }
}

// ---- sessions

struct Calls {
    start: Call,
    short_start: Call,
    open: Call,
    short: Call,
    fail: Call,
}

fn calls(of: &Opening) -> Calls {
    let (start, asks) = (start_asks(of) as u16, delivery_asks(of) as u16);
    Calls {
        start: Call::Start(start),
        short_start: Call::Start(start - 1),
        open: Call::Piece(asks, [&replies(of)[..], b"SDF"].concat()),
        short: Call::Piece(asks - 1, replies(of)),
        fail: Call::Piece(asks, vec![4; 8]),
    }
}

fn sessions(list: &mut Kept) {
    for version in [5, 4] {
        let of = base(version).of;
        let Calls { start, short_start, open, short, fail } = calls(&of);
        let any = [start.clone(), short_start, open.clone(), short, Call::End, Call::Bound(2048), Call::Attempts];
        let kind = Kind::Session(of);
        rows(list, &kind, &[], &any, 3);
        for settled in [open, fail, Call::End] {
            rows(list, &kind, &[start.clone(), settled], &any, 2);
        }
    }
    // what preparing refused stays so
    for refused in unprepared() {
        let Calls { start, short_start, open, .. } = calls(&refused);
        let any = [start, short_start, open, Call::End, Call::Bound(0), Call::Attempts];
        rows(list, &Kind::Session(refused.of), &[], &any, 2);
    }
}

// The text and the attempts ahead of the start and behind each byte; ends, starts and deliveries that are late.
fn told_between(list: &mut Kept) {
    for case in base_cases() {
        let Calls { start, short_start, open, short, .. } = calls(&case);
        let told = [Call::Bound(0), Call::Attempts, Call::Bound(9217), Call::Attempts];
        let mut all = told.to_vec();
        all.extend([open.clone(), Call::End, short, short_start.clone()]);
        all.extend(told.clone());
        all.extend([start.clone(), start.clone(), short_start.clone()]);
        for b in replies(&case) {
            all.extend(told.clone());
            all.extend([Call::Piece(9216, vec![b]), Call::Piece(9216, vec![])]);
        }
        all.extend(told.clone());
        let kind = Kind::Session(case.of);
        list.put(Case { kind: kind.clone(), calls: all.clone() });
        all.extend([Call::Bound(9), Call::Bound(3), Call::Bound(4), open, start, short_start, Call::End]);
        all.extend(told);
        list.put(Case { kind: kind.clone(), calls: all.clone() });
        // in the other order, and each call twice
        all.reverse();
        list.put(Case { kind: kind.clone(), calls: all.clone() });
        let twice = all.into_iter().rev().flat_map(|call| [call.clone(), call]).collect();
        list.put(Case { kind, calls: twice });
    }
}

// Late, at every place of the replies, one byte a delivery: what came ahead of it is not taken.
fn late_starts(list: &mut Kept) {
    for case in base_cases() {
        let stream = replies(&case);
        for at in 0..=stream.len() {
            let mut all: Vec<Call> = stream.iter().map(|b| Call::Piece(2048, vec![*b])).collect();
            all.insert(at, Call::Start(2048));
            all.extend([Call::Piece(2048, stream.clone()), Call::Attempts, Call::Bound(2048)]);
            list.put(Case { kind: Kind::Session(case.of.clone()), calls: all });
        }
    }
}

// Flags that are none, in every kind.
fn other_flags(list: &mut Kept) {
    for flags in [0x10, 0x20, 0x40, 0x80, 0xF0] {
        for version in [5, 4] {
            let mut case = base(version);
            case.flags |= flags;
            let stream = replies(&case);
            list.add(case.piece(&stream));
        }
        let mut chain = route::chain("5c 4").served();
        chain.flags |= flags | CREDENTIALS | LOCAL_LOOKUP | OPTIMISTIC;
        chain.proxies.iter_mut().for_each(|proxy| proxy.flags |= flags | LOCAL_LOOKUP);
        list.add(chain);
        let mut end = proxy::asked().answer(0);
        end.flags |= flags | 0xE;
        list.add(end);
    }
}

// ---- routes and ends

fn routes(list: &mut Kept) {
    for route in [route::chain("5 4"), route::chain("4 5co"), route::chain("5 4").lent(2047), route::many(9)] {
        let asks = route_asks(&route) as u16;
        let each = route::good(&route);
        let any = [
            Call::Piece(asks, each[0].clone()),
            Call::Piece(asks, [&each.concat()[..], b"SDF"].concat()),
            Call::Piece(asks - 1, each.concat()),
            Call::End,
            Call::Attempts,
        ];
        let kind = Kind::Route(route.of.clone(), route.lent);
        rows(list, &kind, &[], &any, 3);
        rows(list, &kind, &[any[0].clone(), any[1].clone()], &any, 2);
    }
}

fn ends(list: &mut Kept) {
    for (end, stream, success) in proxy::shortest() {
        let given = |lent, status| Call::Answer(lent, Answer { status, bound: (4, [7; 16]), port: 80 });
        let whole = Call::Piece(262, [&stream[..], b"SDF"].concat());
        let short = Call::Piece(261, stream.clone());
        let any = [whole.clone(), short, Call::End, given(262, success), given(262, 93), given(261, success)];
        let kind = Kind::End(end);
        rows(list, &kind, &[], &any, 3);
        rows(list, &kind, &[whole.clone()], &any, 3);
        rows(list, &kind, &[Call::Piece(262, stream[..2].to_vec())], &any, 2);
    }
}

pub fn add(list: &mut Kept) {
    [sessions, told_between, late_starts, other_flags, routes, ends].iter().for_each(|part| part(list));
}
