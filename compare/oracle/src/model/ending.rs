//! Request F-12 by searching: reply streams in the order of their lengths and, in one length, of their bytes, each with
//! all of 256 bytes behind it, over the plain machines in turn. Nothing is built: a stream is what came first.
use super::session::*;
use super::tunnel::{in_turn, openings, route_check};
use crate::case::*;
use std::cell::RefCell;
use std::collections::{HashMap, HashSet};
use std::rc::Rc;

// How a row of machines ends when end of stream follows: which was begun last, counted from 1, its outcome and status.
pub type Ending = (usize, u8, u8);

// Each ending that is met, with the first stream that leads there.
type Found = HashMap<Ending, Vec<u8>>;

// ---- states

// What an undecided reply still depends on: two that agree in it come to the same with whatever follows.
#[derive(PartialEq, Eq, Hash)]
enum Left {
    // how many bytes are there, and what of them matters
    Start([usize; 3]),
    // of a connect reply, with its status: so many bytes of any value to its end
    Any(usize, usize),
    // the same inside a name, and what is due there
    Name(usize, usize, [usize; 3]),
    // so many to the end of one whose name is no UTF-8: 10 whatever its status
    Bad(usize),
}
use Left::*;

// By the text of each reply in 01. Method and credential replies hold one byte. Of v4 it matters whether the first is
// 00, and the second as far as it is 90 to 93; of a connect reply up to its third byte whether the first is 05, and the
// second up to 08; if it is undecided then, the first and third are good. The bytes of addresses and ports are any.
fn left(reply: Reply, held: &[u8]) -> Left {
    let byte = |at: usize| held.get(at).map_or(0, |b| usize::from(*b));
    let (n, status) = (held.len(), byte(1));
    match reply {
        Reply::Method(_) | Reply::Credential => Start([n, byte(0), 0]),
        Reply::V4 => Start([n, byte(0).min(1), status.clamp(89, 94)]),
        Reply::Connect if n < 3 => Start([n, usize::from(byte(0) == 5), status.min(9)]),
        Reply::Connect if n < 5 => Start([n, status, byte(3)]),
        Reply::Connect => match byte(3) {
            1 => Any(10 - n, status),
            4 => Any(22 - n, status),
            _ => in_name(7 + byte(4) - n, status, &held[5..n.min(5 + byte(4))]),
        },
    }
}

// With so much of the name. A text is any row of whole characters, so of a part only the last one's start matters.
fn in_name(left: usize, status: usize, name: &[u8]) -> Left {
    let whole = left <= 2;
    match std::str::from_utf8(name) {
        Ok(_) if whole => Any(left, status),
        Ok(_) => Name(left, status, [0; 3]),
        Err(e) if whole || e.error_len().is_some() => Bad(left),
        Err(e) => Name(left, status, due(&name[e.valid_up_to()..])),
    }
}

// Behind the start of a character, by RFC 3629 section 4: the next byte's least and greatest value, and how many more.
fn due(start: &[u8]) -> [usize; 3] {
    match *start {
        [0xE0] => [0xA0, 0xBF, 1],
        [0xED] => [0x80, 0x9F, 1],
        [0xF0] => [0x90, 0xBF, 2],
        [0xF4] => [0x80, 0x8F, 2],
        _ => [0x80, 0xBF, [0xC0, 0xE0, 0xF0].iter().filter(|least| start[0] >= **least).count() - start.len()],
    }
}

// ---- the search

fn ending(begun: &[State]) -> Ending {
    let last = &begun[begun.len() - 1];
    (begun.len(), last.outcome.unwrap_or(9), last.status)
}

// A state is the machine, the reply that it awaits and what that still depends on. Of the streams to a state the first
// is kept: with the same bytes behind it, it stays ahead of the others. A settled machine reads no further, so the
// search ends when no new state waits; an ending that it has not met has no stream.
fn search(row: &[Vec<Reply>]) -> Found {
    let plans: Vec<Vec<Step>> = row.iter().map(|all| all.iter().copied().map(Step::Expect).collect()).collect();
    let (mut found, mut met) = (Found::from([(ending(&in_turn(&plans, &[])), vec![])]), HashSet::new());
    // of one length, in the order of their bytes: the stream, its machine and reply, and where that begins
    let mut waiting = vec![(vec![], (1, 0), 0)];
    while !waiting.is_empty() {
        let mut longer = vec![];
        for (mut stream, before, begins) in waiting {
            for byte in 0..=255 {
                stream.push(byte);
                let begun = in_turn(&plans, &stream);
                found.entry(ending(&begun)).or_insert_with(|| stream.clone());
                let last = &begun[begun.len() - 1];
                let now = (begun.len(), last.decided);
                let begins = if now == before { begins } else { stream.len() };
                if last.outcome.is_none() && met.insert((now, left(row[now.0 - 1][now.1], &stream[begins..]))) {
                    longer.push((stream.clone(), now, begins));
                }
                stream.pop();
            }
        }
        waiting = longer;
    }
    found
}

// ---- a row

fn replies(opening: &Opening) -> Vec<Reply> {
    let expected = |step| if let Step::Expect(reply) = step { Some(reply) } else { None };
    plan(opening).into_iter().filter_map(expected).collect()
}

thread_local! {
    static FOUND: RefCell<HashMap<Vec<Reply>, Rc<Found>>> = RefCell::default();
}

// By one machine; what it sends changes nothing of it.
fn alone(opening: &Opening, number: u8, status: u8) -> Option<Vec<u8>> {
    let row = replies(opening);
    let found = FOUND.with_borrow_mut(|all| all.entry(row.clone()).or_insert_with(|| Rc::new(search(&[row]))).clone());
    found.get(&(1, number, status)).cloned()
}

// Where a machine is begun there is one state, nothing being held. So the search over the row goes on from the first
// stream to it as the search over that machine alone does, which is made once.
pub fn stream(row: &[Opening], (at, number, status): Ending) -> Option<Vec<u8>> {
    let (last, before) = row.get(..at)?.split_last()?;
    if number == 0 && at < row.len() {
        return None;
    }
    let all = before.iter().map(|opening| alone(opening, 0, 0)).chain([alone(last, number, status)]);
    Some(all.collect::<Option<Vec<_>>>()?.concat())
}

// Every ending that the search over the whole row meets.
pub fn whole(row: &[Opening]) -> Found {
    search(&row.iter().map(replies).collect::<Vec<_>>())
}

// Where these replies end a row, and how many of their bytes it uses.
pub fn ends(row: &[Opening], stream: &[u8]) -> (Ending, usize) {
    let begun = in_turn(&row.iter().map(plan).collect::<Vec<_>>(), stream);
    (ending(&begun), begun.iter().map(|now| now.used).sum())
}

// ---- a case

// The openings and the one to end at, or the number of the first check that refuses.
pub fn row(of: &Row) -> Result<(Vec<Opening>, usize), u8> {
    let (number, row) = match of {
        Row::Session(opening) => (prepare(opening), (vec![opening.clone()], 1)),
        Row::Route(route, at) => (route_check(route, MOST_LENT), (openings(route), usize::from(*at))),
    };
    if number == 0 { Ok(row) } else { Err(number) }
}

pub fn text(of: &Row, wanted: &Wanted) -> String {
    match row(of).map(|(row, at)| stream(&row, (at, wanted.number, wanted.status))) {
        Err(number) => format!("{number} -"),
        Ok(None) => "none -".into(),
        Ok(Some(stream)) if stream.len() > lent(wanted.lent) => "27 -".into(),
        Ok(Some(stream)) => format!("0 {}", hex(&stream)),
    }
}
