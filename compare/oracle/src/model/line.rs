//! Request F-9 by regular expressions. Lawful lines are a set of texts; what may stand behind a byte is such a set
//! again, and a line is lawful if what may stand behind all of it holds the empty text. Its value is split off it. The
//! place of one that is not lawful is found by trying endings.
use super::session::strip;
use crate::case::hex;
use std::cell::RefCell;
use std::collections::{BTreeSet, HashMap};

// ---- sets of texts

type Id = usize;

#[derive(Clone, PartialEq, Eq, Hash)]
enum Set {
    Empty,
    // one of these bytes, by their bits
    Byte([u128; 2]),
    // a text of the one, and behind it one of the other
    Then(Id, Id),
    // of any of these; with none of them there is no text
    Either(BTreeSet<Id>),
    // so many texts at least and at most, none of them empty
    Times(Id, usize, usize),
}
use Set::*;

const NOTHING: Id = 0;
const EMPTY: Id = 1;
const UNKNOWN: Id = Id::MAX;

// Each set once, so that equal ones have one number, and what is behind a byte is found once.
#[derive(Default)]
struct Sets {
    all: RefCell<Vec<Set>>,
    ids: RefCell<HashMap<Set, Id>>,
    behind: RefCell<Vec<Option<Box<[Id; 256]>>>>,
}

impl Sets {
    fn new() -> Sets {
        let sets = Sets::default();
        sets.id(Either(BTreeSet::new()));
        sets.id(Empty);
        sets
    }

    fn id(&self, set: Set) -> Id {
        let mut all = self.all.borrow_mut();
        *self.ids.borrow_mut().entry(set.clone()).or_insert_with(|| {
            all.push(set);
            all.len() - 1
        })
    }

    fn set(&self, id: Id) -> Set {
        self.all.borrow()[id].clone()
    }

    fn byte(&self, of: impl Fn(u8) -> bool) -> Id {
        let mut bits = [0; 2];
        (0..=255).filter(|b| of(*b)).for_each(|b| bits[usize::from(b / 128)] |= 1 << (b % 128));
        if bits == [0; 2] { NOTHING } else { self.id(Byte(bits)) }
    }

    fn then(&self, one: Id, other: Id) -> Id {
        match self.set(one) {
            _ if one == NOTHING || other == NOTHING => NOTHING,
            _ if other == EMPTY => one,
            Empty => other,
            Then(first, second) => self.then(first, self.then(second, other)),
            _ => self.id(Then(one, other)),
        }
    }

    fn row(&self, of: &[Id]) -> Id {
        of.iter().rev().fold(EMPTY, |rest, one| self.then(*one, rest))
    }

    fn either(&self, of: &[Id]) -> Id {
        let each = |id: &Id| if let Either(ids) = self.set(*id) { ids } else { BTreeSet::from([*id]) };
        let mut all: BTreeSet<Id> = of.iter().flat_map(each).collect();
        if all.len() == 1 { all.pop_first().expect("one") } else { self.id(Either(all)) }
    }

    fn times(&self, one: Id, least: usize, most: usize) -> Id {
        if most == 0 { EMPTY } else { self.id(Times(one, least, most)) }
    }

    fn word(&self, text: &str) -> Id {
        self.row(&text.bytes().map(|byte| self.byte(|b| b == byte)).collect::<Vec<_>>())
    }

    fn has_empty(&self, id: Id) -> bool {
        match self.set(id) {
            Empty => true,
            Byte(_) => false,
            Then(one, other) => self.has_empty(one) && self.has_empty(other),
            Either(ids) => ids.into_iter().any(|id| self.has_empty(id)),
            Times(_, least, _) => least == 0,
        }
    }

    // The texts that are of this set with the byte before them.
    fn derived(&self, id: Id, byte: u8) -> Id {
        match self.set(id) {
            Empty => NOTHING,
            Byte(bits) if bits[usize::from(byte / 128)] >> (byte % 128) & 1 == 1 => EMPTY,
            Byte(_) => NOTHING,
            Then(one, other) => {
                let within = self.then(self.derived(one, byte), other);
                let past = if self.has_empty(one) { self.derived(other, byte) } else { NOTHING };
                self.either(&[within, past])
            }
            Either(ids) => self.either(&ids.into_iter().map(|id| self.derived(id, byte)).collect::<Vec<_>>()),
            Times(one, least, most) => {
                self.then(self.derived(one, byte), self.times(one, least.saturating_sub(1), most - 1))
            }
        }
    }

    fn step(&self, id: Id, byte: u8) -> Id {
        let known = self.behind.borrow().get(id).and_then(Option::as_ref).map_or(UNKNOWN, |row| row[usize::from(byte)]);
        if known != UNKNOWN {
            return known;
        }
        let next = self.derived(id, byte);
        let mut behind = self.behind.borrow_mut();
        let n = behind.len().max(id + 1);
        behind.resize(n, None);
        behind[id].get_or_insert_with(|| Box::new([UNKNOWN; 256]))[usize::from(byte)] = next;
        next
    }

    // ---- the grammar, by the words of F-9 and of 01

    // A number up to this one, without leading zeros: 0; fewer digits; the same ones up to a smaller one; this one.
    fn number(&self, most: &str) -> Id {
        let digits = |least: u8, top: u8| self.byte(|b| (least..top).contains(&b));
        let any = |least: usize, most: usize| self.times(digits(b'0', b':'), least, most);
        let fewer = self.row(&[digits(b'1', b':'), any(0, most.len() - 2)]);
        let mut all = vec![self.word("0"), fewer, self.word(most)];
        for (i, top) in most.bytes().enumerate() {
            let (least, left) = (if i == 0 { b'1' } else { b'0' }, most.len() - 1 - i);
            all.push(self.row(&[self.word(&most[..i]), digits(least, top), any(left, left)]));
        }
        self.either(&all)
    }

    fn ipv4(&self) -> Id {
        let (number, dot) = (self.number("255"), self.word("."));
        self.row(&[number, dot, number, dot, number, dot, number])
    }

    // Eight groups, or fewer and `::` for one at least; the last two may be an IPv4 text.
    fn ipv6(&self) -> Id {
        let group = self.times(self.byte(|b| b.is_ascii_hexdigit()), 1, 4);
        let ahead = |n: usize| self.times(self.then(group, self.word(":")), n, n);
        let groups = |n: usize| if n == 0 { EMPTY } else { self.then(ahead(n - 1), group) };
        let mixed = |n: usize| if n < 2 { NOTHING } else { self.then(ahead(n - 2), self.ipv4()) };
        let last = |n: usize| self.either(&[groups(n), mixed(n)]);
        let mut all = vec![last(8)];
        for n in 0..8 {
            all.extend((0..8 - n).map(|more| self.row(&[groups(n), self.word("::"), last(more)])));
        }
        self.either(&all)
    }

    fn host(&self) -> Id {
        let plain = self.byte(|b| (0x21..=0x7E).contains(&b) && !b"/@%:[]".contains(&b));
        self.either(&[self.row(&[self.word("["), self.ipv6(), self.word("]")]), self.times(plain, 1, 255)])
    }

    // A user or a password.
    fn text(&self) -> Id {
        let free = self.byte(|b| b.is_ascii_alphanumeric() || b"-._~".contains(&b));
        let digit = self.byte(|b| b.is_ascii_hexdigit());
        self.times(self.either(&[free, self.row(&[self.word("%"), digit, digit])]), 0, 255)
    }

    fn lines(&self) -> Id {
        let credentials = self.row(&[self.text(), self.word(":"), self.text(), self.word("@")]);
        let target = self.row(&[self.host(), self.word(":"), self.number("65535")]);
        let with = self.either(&[target, self.then(credentials, target)]);
        let schemes = [("socks4", target), ("socks4a", target), ("socks5", with), ("socks5h", with)];
        self.either(&schemes.map(|(scheme, rest)| self.row(&[self.word(scheme), self.word("://"), rest])))
    }
}

// ---- lines

thread_local! {
    static SETS: Sets = Sets::new();
    static LINES: Id = SETS.with(Sets::lines);
}

// How many bytes have a lawful text behind them, and whether all have and the empty one is lawful there.
fn walk(text: &[u8]) -> (usize, bool) {
    SETS.with(|sets| {
        let mut now = LINES.with(|lines| *lines);
        for (i, byte) in text.iter().enumerate() {
            now = sets.step(now, *byte);
            if now == NOTHING {
                return (i, false);
            }
        }
        (text.len(), sets.has_empty(now))
    })
}

pub fn lawful(text: &[u8]) -> bool {
    walk(text).1
}

// The place once more, without endings: where nothing is left of the set.
pub fn dies(text: &[u8]) -> usize {
    walk(text).0
}

// ---- the place

// If a beginning goes on, one of these endings makes it lawful, by where it ends:
// in the scheme, or ahead of a host: with the rest of this line, for up to its digit any scheme may turn out this one,
// and behind it and behind a letter the rest is the same; in a plain host, which may end behind each of its bytes, or
// behind a bracket: with its last two bytes; ahead of the port: with the last; in the port: with nothing, since what a
// port begins with is a port
const LINE: &str = "socks4://h:1";
// in a user or a password, which may end behind each of its bytes: with the digits that an escape lacks, and the rest
const CREDENTIALS: [&str; 6] = [":@h:1", "0:@h:1", "00:@h:1", "@h:1", "0@h:1", "00@h:1"];
// in brackets, each with the bracket and a port behind it. An IPv4 text lacks numbers, or a dot and numbers, or
// nothing. A text with `::` is whole behind it and behind each group, and lacks one group behind another colon. One
// without it is whole with eight groups, and with fewer may have it now: both colons at its start and behind a group,
// or one colon behind another.
pub const SIXES: [&str; 9] = ["", "::", ":", "1", "1.1.1", "1.1", ".1.1.1", ".1.1", ".1"];

fn endings() -> Vec<String> {
    let lines = (0..=LINE.len()).map(|n| LINE[n..].into());
    let sixes = SIXES.map(|ending| format!("{ending}]:1"));
    lines.chain(CREDENTIALS.map(String::from)).chain(sixes).collect()
}

// The length of the longest beginning that goes on: what a beginning begins with goes on too.
fn place(text: &[u8]) -> usize {
    let endings = endings();
    let goes_on = |n: usize| endings.iter().any(|ending| lawful(&[&text[..n], ending.as_bytes()].concat()));
    let (mut least, mut most) = (0, text.len());
    while least < most {
        let n = (least + most).div_ceil(2);
        if goes_on(n) { least = n } else { most = n - 1 }
    }
    least
}

// ---- the value

fn unescaped(text: &str) -> Vec<u8> {
    let mut parts = text.split('%');
    let mut bytes = parts.next().unwrap_or_default().as_bytes().to_vec();
    for part in parts {
        bytes.push(u8::from_str_radix(&part[..2], 16).expect("two digits"));
        bytes.extend(part[2..].bytes());
    }
    bytes
}

// None: a byte is missing that a lawful line has.
fn value(line: &str) -> Option<String> {
    let (scheme, rest) = line.split_once("://")?;
    let (credentials, target) = rest.split_once('@').map_or((None, rest), |(before, behind)| (Some(before), behind));
    let (host, port) = target.rsplit_once(':')?;
    let (user, password) = credentials.unwrap_or(":").split_once(':')?;
    let version = scheme.chars().find(char::is_ascii_digit)?;
    let lookup = u8::from(scheme.ends_with(version));
    let given = u8::from(credentials.is_some());
    let [user, password] = [user, password].map(|text| hex(&unescaped(text)));
    Some(format!("0 {version} {lookup} {given} {user} {password} {} {port}", hex(strip(host.as_bytes()))))
}

pub fn text(line: &[u8]) -> String {
    if !lawful(line) {
        return format!("24 {}", place(line));
    }
    std::str::from_utf8(line).ok().and_then(value).expect("a lawful line")
}
