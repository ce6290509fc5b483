//! Captures, request F-10, in the kept list: every number; each sent byte too early, as early as may be and late;
//! replies and requests cut everywhere; entries of no bytes and of the most; captures broken off; one byte more, less
//! or changed; what is alike.
use super::session::{IPV4_REPLY, IPV6_REPLY, base_cases, good, unprepared};
use super::{Kept, hexes};
use crate::case::*;
use crate::draft::*;
use crate::generate;
use crate::model::capture::{due, requests};
use crate::model::{machine, plan};

// Each with whether it goes to the client.
type Entries = Vec<(bool, Vec<u8>)>;

// An entry has no more bytes.
const MOST: usize = 0x7FFF;
// Random cases, as far as they are small.
const RANDOM: usize = 40;
const SMALL: usize = 300;

// A capture being made. Each of its changes gives another.
#[derive(Clone)]
struct Recording {
    of: Opening,
    sent: Vec<u8>,
    received: Vec<u8>,
    // for each sent byte, how many received ones stand before it
    places: Vec<usize>,
}

impl Recording {
    // With each sent byte as early as may be.
    fn new(of: &Opening, received: &[u8]) -> Self {
        let requests = requests(of);
        let places = requests.iter().enumerate().flat_map(|(number, request)| vec![due(of, number); request.len()]);
        Recording { of: of.clone(), sent: requests.concat(), received: received.to_vec(), places: places.collect() }
    }

    // The sent bytes from this one on not ahead of that place.
    fn from(&self, byte: usize, place: usize) -> Self {
        let mut other = self.clone();
        other.places[byte..].iter_mut().for_each(|there| *there = place.max(*there));
        other
    }

    // So many sent bytes not behind that place.
    fn until(&self, bytes: usize, place: usize) -> Self {
        let mut other = self.clone();
        other.places[..bytes].iter_mut().for_each(|there| *there = place.min(*there));
        other
    }

    // So many sent bytes alone.
    fn sending(&self, n: usize) -> Self {
        Recording { sent: self.sent[..n].to_vec(), places: self.places[..n].to_vec(), ..self.clone() }
    }

    fn late(&self) -> Self {
        self.from(0, self.received.len())
    }

    fn early(&self) -> Self {
        self.until(self.sent.len(), 0)
    }

    fn flag(&self, flags: u8) -> Self {
        Recording { of: Opening { flags: self.of.flags | flags, ..self.of.clone() }, ..self.clone() }
    }

    // Where each request begins, and its length.
    fn requests(&self) -> Vec<(usize, usize)> {
        let (mut at, mut all) = (0, vec![]);
        for request in requests(&self.of) {
            all.push((at, request.len()));
            at += request.len();
        }
        all
    }

    // Bytes of one direction in a row are an entry. What has its place behind the last reply is not there.
    fn entries(&self) -> Entries {
        let (mut all, mut at) = (vec![], 0);
        for n in 0..=self.received.len() {
            let end = self.places.iter().take_while(|place| **place <= n).count();
            join(&mut all, false, &self.sent[at..end]);
            join(&mut all, true, &self.received[n..self.received.len().min(n + 1)]);
            at = end;
        }
        all
    }

    fn one(&self, list: &mut Kept) {
        put(list, &self.of, &[&self.entries()]);
    }
}

fn join(all: &mut Entries, to_client: bool, bytes: &[u8]) {
    match all.last_mut() {
        _ if bytes.is_empty() => {}
        Some((same, there)) if *same == to_client => there.extend(bytes),
        _ => all.push((to_client, bytes.to_vec())),
    }
}

fn case(of: &Opening, captures: &[Vec<u8>]) -> Case {
    Case { kind: Kind::Captures(of.clone(), captures.to_vec()), calls: vec![] }
}

fn put(list: &mut Kept, of: &Opening, captures: &[&Entries]) {
    list.put(case(of, &captures.iter().map(|entries| capture(entries)).collect::<Vec<_>>()));
}

// ---- entries changed

fn each_byte(entries: &Entries) -> Entries {
    entries.iter().flat_map(|(to_client, bytes)| bytes.iter().map(|byte| (*to_client, vec![*byte]))).collect()
}

// Empty ones in front, between and behind, of either direction in turn.
fn with_empty(entries: &Entries) -> Entries {
    let mut all = vec![(true, vec![])];
    for (entry, n) in entries.iter().zip(0..) {
        all.extend([entry.clone(), (n % 2 == 1, vec![])]);
    }
    all
}

// Cut at a byte of one direction.
fn split(entries: &Entries, direction: bool, mut at: usize) -> Entries {
    let mut all = vec![];
    for (to_client, bytes) in entries {
        let n = if *to_client == direction { bytes.len() } else { 0 };
        if at > 0 && at < n {
            all.extend([&bytes[..at], &bytes[at..]].map(|part| (*to_client, part.to_vec())));
        } else {
            all.push((*to_client, bytes.clone()));
        }
        at = at.saturating_sub(n);
    }
    all
}

// In the entry of this number.
fn but(entries: &Entries, number: usize, change: impl FnOnce(&mut (bool, Vec<u8>))) -> Entries {
    let mut other = entries.clone();
    change(&mut other[number]);
    other
}

// Each byte of each entry changed.
fn changes(entries: &Entries, change: impl Fn(u8) -> Option<u8>) -> Vec<Entries> {
    let mut all = vec![];
    for number in 0..entries.len() {
        for at in 0..entries[number].1.len() {
            all.push(but(entries, number, |(_, bytes)| match change(bytes[at]) {
                Some(byte) => bytes[at] = byte,
                None => drop(bytes.remove(at)),
            }));
        }
    }
    all
}

// ---- recordings

// One of each kind of session, asked for a: plain, optimistic, both with credentials, v4.
fn small() -> Vec<Recording> {
    let of = |case: &Draft<Opening>| Opening { host: b"a".to_vec(), ..case.of.clone() };
    base_cases().iter().map(|case| Recording::new(&of(case), &good(case))).collect()
}

// Plain v5 without credentials and with them, and v4.
fn plain() -> Vec<Recording> {
    small().into_iter().filter(|one| !one.of.has(OPTIMISTIC)).collect()
}

// The last reply of v5 another.
fn last_reply(one: &Recording, reply: &[u8]) -> Recording {
    let start = one.received.iter().skip(2).position(|byte| *byte == 5).map_or(2, |at| at + 2);
    Recording { received: [&one.received[..start], reply].concat(), ..one.clone() }
}

fn named(name: &[u8]) -> Vec<u8> {
    [&[5, 0, 0, 3, name.len() as u8], name, &[0, 80]].concat()
}

// In turn, and with all requests behind the last reply; each in entries of one byte, and among empty ones. Then with
// replies of other kinds.
fn lawful(list: &mut Kept) {
    for one in small() {
        for one in [one.clone(), one.late()] {
            let entries = one.entries();
            [&entries, &each_byte(&entries), &with_empty(&entries)].iter().for_each(|way| put(list, &one.of, &[way]));
        }
    }
    for one in plain().iter().filter(|one| one.of.version == 5) {
        let names = [&[b'n'; 255][..], "\u{65E5}\u{672C}".as_bytes(), &[0]].map(named);
        for reply in names.iter().map(|name| &name[..]).chain([&IPV4_REPLY[..], &IPV6_REPLY]) {
            let one = last_reply(one, reply);
            one.one(list);
            put(list, &one.of, &[&each_byte(&one.entries())]);
        }
    }
}

// Of other openings: in turn, all sent last, and all first.
fn openings(list: &mut Kept) {
    let of = |version: u8, flags: u8, host: &[u8]| Opening {
        flags: PORT | flags,
        host: host.to_vec(),
        user: vec![b'u'; 255],
        password: vec![b'p'; 255],
        records: vec![(6, [7; 16]), (4, [9; 16])],
        ..base(version).of
    };
    let (name, long) = (&[b'n'; 255][..], &[b'n'; 1014][..]);
    let mut all = vec![of(4, 0, long), of(4, CREDENTIALS | OPTIMISTIC, b"a"), of(4, LOCAL_LOOKUP, b"a")];
    all.extend([of(4, 0, b"0.0.0.0"), of(5, 0, b"1.2.3.4"), of(5, 0, b"[2001:db8::1]"), of(5, LOCAL_LOOKUP, b"a")]);
    all.extend([0, OPTIMISTIC, CREDENTIALS, CREDENTIALS | OPTIMISTIC].map(|flags| of(5, flags, name)));
    all.push(Opening { user: vec![], password: vec![], port: 0, ..of(5, CREDENTIALS, b"a") });
    for of in all {
        let one = Recording::new(&of, &good(&of));
        one.one(list);
        one.late().one(list);
        one.early().one(list);
    }
}

// ---- numbers

// Lawful, broken and empty ones, as the only one and as two.
fn refused(list: &mut Kept) {
    let (good, broken, none) = (capture(&small()[0].entries()), vec![0x80], vec![]);
    for opening in unprepared() {
        [&good, &broken].iter().for_each(|one| list.put(case(&opening.of, &[one.to_vec()])));
        list.put(case(&opening.of, &[none.clone(), broken.clone()]));
    }
    for one in [&small()[2], &small()[4]] {
        let good = capture(&one.entries());
        let broken = [&good[..], &[0x80]].concat();
        for first in [&good, &broken, &none] {
            list.put(case(&one.of, &[first.clone()]));
            [&good, &broken, &none]
                .iter()
                .for_each(|second| list.put(case(&one.of, &[first.clone(), second.to_vec()])));
        }
    }
}

// ---- places

// Sent bytes up to each one a byte ahead of where they are due; the first of a request, and all of it, also ahead of
// the whole reply. An optimistic opening takes them.
fn early(list: &mut Kept) {
    for one in plain() {
        for (number, (at, n)) in one.requests().into_iter().enumerate().skip(1) {
            let place = due(&one.of, number);
            (1..=n).for_each(|bytes| one.until(at + bytes, place - 1).one(list));
            for bytes in [1, n] {
                let ahead = [one.until(at + bytes, place - 1), one.until(at + bytes, place - 2)];
                ahead.iter().flat_map(|one| [one.clone(), one.flag(OPTIMISTIC)]).for_each(|one| one.one(list));
            }
        }
        one.early().one(list);
        one.early().flag(OPTIMISTIC).one(list);
    }
}

// From each sent byte on behind the last reply, and the last one a byte before its end.
fn late(list: &mut Kept) {
    for one in plain() {
        let (sent, last) = (one.sent.len(), one.received.len());
        (0..sent).for_each(|byte| one.from(byte, last).one(list));
        one.from(sent - 1, last - 1).one(list);
    }
}

// Each request whole at every place, those before it no later and those behind it no earlier.
fn everywhere(list: &mut Kept) {
    for one in plain() {
        for (at, n) in one.requests() {
            (0..=one.received.len()).for_each(|place| one.until(at + n, place).from(at, place).one(list));
        }
    }
}

// An entry with the end of one request and the start of the next: a byte too early for the next, and not. An optimistic
// opening takes both.
fn seams(list: &mut Kept) {
    for one in small().into_iter().filter(|one| one.of.version == 5) {
        let all = one.requests();
        for (number, (at, n)) in all.iter().enumerate().skip(1) {
            let (_, before) = all[number - 1];
            for (ends, starts) in [(1, 1), (before, *n), (1, *n), (before, 1)] {
                for place in [2 * number - 1, 2 * number] {
                    one.until(at + starts, place).from(at - ends, place).one(list);
                }
            }
        }
    }
}

// ---- cuts

// In two at every byte of the replies, and of the requests.
fn cuts(list: &mut Kept) {
    for one in plain() {
        let entries = one.entries();
        (1..one.received.len()).for_each(|at| put(list, &one.of, &[&split(&entries, true, at)]));
        if one.of.has(CREDENTIALS) {
            (1..one.sent.len()).for_each(|at| put(list, &one.of, &[&split(&entries, false, at)]));
        }
    }
    let one = last_reply(&small()[0], &IPV6_REPLY);
    (1..one.received.len()).for_each(|at| put(list, &one.of, &[&split(&one.entries(), true, at)]));
}

// Empty entries alone, at each place, and many of them.
fn empty(list: &mut Kept) {
    let one = &small()[0];
    let entries = one.entries();
    for none in [(false, vec![]), (true, vec![])] {
        put(list, &one.of, &[&vec![none.clone()]]);
        put(list, &one.of, &[&vec![none.clone(); 3]]);
        for at in 0..=entries.len() {
            put(list, &one.of, &[&[&entries[..at], &[none.clone()], &entries[at..]].concat()]);
        }
        put(list, &one.of, &[&[vec![none.clone(); 1000], entries.clone()].concat(), &entries]);
        put(list, &one.of, &[&entries, &[entries.clone(), vec![none.clone(); 300]].concat()]);
        put(list, &one.of, &[&entries, &vec![none]]);
    }
}

// An entry of the most bytes behind the others: whole, and with its last byte lacking.
fn longest(list: &mut Kept) {
    let one = &small()[0];
    let entries = one.entries();
    let [sent, received] = [false, true].map(|direction| [&entries[..], &[(direction, vec![5; MOST])]].concat());
    put(list, &one.of, &[&sent]);
    put(list, &one.of, &[&entries, &received]);
    let short = |long: &Entries| capture(long).split_last().expect("a byte").1.to_vec();
    list.put(case(&one.of, &[short(&received)]));
    list.put(case(&one.of, &[capture(&entries), short(&sent)]));
}

// ---- broken off

// A capture's beginnings; a byte or a few behind its end; headers that say more or less, or the other direction.
fn broken(entries: &Entries) -> Vec<Vec<u8>> {
    let whole = capture(entries);
    let mut all: Vec<Vec<u8>> = (0..whole.len()).map(|n| whole[..n].to_vec()).collect();
    for more in [&[0][..], &[0x7F], &[0x80], &[0xFF], &[0x7F, 0xFF], &[0x80, 1], &[0xFF, 0xFF], &[0, 2, 5]] {
        all.extend([more.to_vec(), [&whole[..], more].concat()]);
    }
    for number in 0..entries.len() {
        let at = capture(&entries[..number]).len();
        let header = u16::from_be_bytes([whole[at], whole[at + 1]]);
        for other in [header - 1, header + 1, header ^ 0x8000, header | 0x7FFF] {
            all.push([&whole[..at], &other.to_be_bytes()[..], &whole[at + 2..]].concat());
        }
    }
    all
}

// As the first over v5, as the second over v4.
fn headers(list: &mut Kept) {
    let [five, four] = [&small()[0], &small()[4]].map(|one| (one.of.clone(), one.entries()));
    broken(&five.1).into_iter().for_each(|other| list.put(case(&five.0, &[other])));
    broken(&four.1).into_iter().for_each(|other| list.put(case(&four.0, &[capture(&four.1), other])));
}

// ---- one byte

// Changed in the first. One less and one more: with credentials in the first, else in the second, and changed there
// too. Addresses and ports of replies may be any.
fn bytes(list: &mut Kept) {
    for one in plain() {
        let entries = one.entries();
        let changed = changes(&entries, |byte| Some(byte ^ 1));
        changed.iter().for_each(|other| put(list, &one.of, &[other]));
        let mut others = changes(&entries, |_| None);
        for number in 0..entries.len() {
            let last = entries[number].1.len();
            others.extend([0, last].map(|at| but(&entries, number, |(_, bytes)| bytes.insert(at, 5))));
        }
        if one.of.has(CREDENTIALS) {
            others.iter().for_each(|other| put(list, &one.of, &[other]));
        } else {
            others.iter().chain(&changed).for_each(|other| put(list, &one.of, &[&entries, other]));
        }
    }
}

// ---- replies that open nothing

const FAILING: &str = "
    05FF 0501 0502 0400 050005010001000000000000 0500050800040000000000000000000000000000000000000000
    0500050500030178002A 050005FF0001000000000000 050004000001000000000000 050005000101000000000000
    050005000002000000000000 05000500000300002A 050005000003015000 0500050000 05000500000302C328002A
    0500050000030180002A 0500050000030178 05 0500";
const FAILING_WITH: &str = "
    05FF 0500 05020101 050201FF 05020000 05020500 0500050000030178002A 050201000501000301780050 0502010005000003017800
    05020100";
const FAILING4: &str = "
    005B000000000000 005C000000000000 005D000000000000 0059000000000000 005E000000000000 045A000000000000 005A0000000000
    005A";

// With all requests as soon as a good reply would have them go, and with what is sent on these.
fn failing(list: &mut Kept) {
    for (number, replies) in [(0, FAILING), (2, FAILING_WITH), (4, FAILING4)] {
        for received in hexes(replies) {
            let one = Recording { received, ..small().swap_remove(number) };
            one.one(list);
            let n = machine(&plan(&one.of), &one.received).sent.len();
            one.sending(n).one(list);
        }
    }
}

// All replies, and fewer requests: without the last byte, the last request, all of them.
fn lacking(list: &mut Kept) {
    for one in small() {
        let last = one.requests().pop().map_or(0, |request| request.0);
        [one.sent.len() - 1, last, 0].iter().for_each(|n| one.sending(*n).one(list));
    }
}

// More than a session takes: behind the last reply, behind the last request, and all of it twice.
fn behind(list: &mut Kept) {
    for one in plain() {
        let entries = one.entries();
        for (direction, bytes) in
            [(true, &[0][..]), (true, b"SDF"), (true, &one.received), (false, b"x"), (false, &[0])]
        {
            put(list, &one.of, &[&[entries.clone(), vec![(direction, bytes.to_vec())]].concat()]);
        }
        put(list, &one.of, &[&[entries.clone(), entries].concat()]);
    }
}

// ---- two

// The same bytes in other cuts and orders, lawful or not; then other bytes, and the same ones in other directions.
fn two(list: &mut Kept) {
    for one in plain() {
        let first = one.entries();
        let early = one.early().entries();
        let mut all = vec![first.clone(), one.late().entries(), early.clone(), each_byte(&early), with_empty(&first)];
        all.extend([each_byte(&one.late().entries()), first.iter().rev().cloned().collect()]);
        all.push(first.iter().map(|(to_client, bytes)| (!to_client, bytes.clone())).collect());
        all.push(each_byte(&first).into_iter().rev().collect());
        all.extend([false, true].map(|only| first.iter().filter(|entry| entry.0 == only).cloned().collect()));
        all.extend([&first[1..], &first[..first.len() - 1]].map(|some| some.to_vec()));
        all.push([&first[..], &first].concat());
        // the last sent byte as the first received one
        let bytes = each_byte(&early);
        all.push(but(&bytes, one.sent.len() - 1, |entry| entry.0 = true));
        all.iter().for_each(|second| put(list, &one.of, &[&first, second]));
        let not = each_byte(&first).split_off(1);
        put(list, &one.of, &[&not, &not]);
        put(list, &one.of, &[&one.late().entries(), &first]);
    }
}

fn random(list: &mut Kept) {
    let small = |case: &Case| case.bytes().len() <= SMALL;
    list.random(RANDOM, |r| generate::in_order(b'C', r, 0), small);
}

pub fn add(list: &mut Kept) {
    list.parts(&[lawful, openings, refused, early, late, everywhere, seams, cuts, empty, longest, headers, bytes]);
    list.parts(&[failing, lacking, behind, two, random]);
}
