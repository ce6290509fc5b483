//! A case of `replay`: its kind with what that has, and its calls; the frame that holds it, and the case of a frame.

pub const CREDENTIALS: u8 = 1;
pub const LOCAL_LOOKUP: u8 = 2;
pub const OPTIMISTIC: u8 = 4;
pub const PORT: u8 = 8;

// Output or a buffer lent above this counts as this.
pub const MOST_LENT: u16 = 9216;
// A case has no more bytes.
pub const MOST_BYTES: usize = 65535;
const MOST_RECORDS: u8 = 8;

// Family 4 or 6, and the address, of which family 4 uses the first four bytes.
pub type Record = (u8, [u8; 16]);

#[derive(Clone, PartialEq)]
pub struct Opening {
    pub version: u8,
    pub flags: u8,
    pub port: u16,
    pub host: Vec<u8>,
    pub user: Vec<u8>,
    pub password: Vec<u8>,
    pub records: Vec<Record>,
}

// As a client is asked for it: local lookup and records have no place in it.
#[derive(Clone, PartialEq)]
pub struct Route {
    pub flags: u8,
    // of the destination
    pub port: u16,
    pub host: Vec<u8>,
    pub proxies: Vec<Opening>,
}

#[derive(Clone, PartialEq)]
pub struct SetUp {
    pub flags: u8,
    pub user: Vec<u8>,
    pub password: Vec<u8>,
}

// The caller's: a status, and the bound address with its port.
#[derive(Clone, PartialEq)]
pub struct Answer {
    pub status: u8,
    pub bound: Record,
    pub port: u16,
}

// The numbers are what is lent.
#[derive(Clone, PartialEq)]
pub enum Call {
    Start(u16),
    Piece(u16, Vec<u8>),
    End,
    Bound(u16),
    Attempts,
    Answer(u16, Answer),
}

// What is to end.
#[derive(Clone, PartialEq)]
pub enum Row {
    Session(Opening),
    // at this proxy, counted from 1
    Route(Route, u8),
}

// The outcome and status, and the buffer lent to the stream.
#[derive(Clone, PartialEq)]
pub struct Wanted {
    pub number: u8,
    pub status: u8,
    pub lent: u16,
}

#[derive(Clone, PartialEq)]
pub enum Kind {
    // A, H, U or L
    Text(u8, Vec<u8>),
    Session(Opening),
    // with what is lent to its opening
    Route(Route, u16),
    End(SetUp),
    Ending(Row, Wanted),
    // one or two of them
    Captures(Opening, Vec<Vec<u8>>),
}

#[derive(Clone, PartialEq)]
pub struct Case {
    pub kind: Kind,
    pub calls: Vec<Call>,
}

pub fn lent(n: u16) -> usize {
    n.min(MOST_LENT).into()
}

impl Opening {
    pub fn has(&self, flag: u8) -> bool {
        self.flags & flag != 0
    }
}

impl SetUp {
    pub fn has(&self, flag: u8) -> bool {
        self.flags & flag != 0
    }
}

impl Call {
    pub fn letter(&self) -> u8 {
        match self {
            Call::Start(_) => b's',
            Call::Piece(..) => b'd',
            Call::End => b'e',
            Call::Bound(_) => b'b',
            Call::Attempts => b't',
            Call::Answer(..) => b'a',
        }
    }
}

// ---- its parts, in the order of its frame

pub enum Part<'a> {
    // a kind, a version, a number of parts, a call's letter
    Fixed(Vec<u8>),
    // with the values that are plain
    Flags(&'a mut u8),
    Byte(&'a mut u8, &'static [u8]),
    Number(&'a mut u16, u16),
    Address(&'a mut [u8; 16]),
    Text(&'a mut Vec<u8>, u8),
}
use Part::*;

impl Part<'_> {
    // A text's without its length.
    pub fn bytes(&self) -> Vec<u8> {
        match self {
            Fixed(bytes) => bytes.clone(),
            Flags(byte) | Byte(byte, _) => vec![**byte],
            Number(n, _) => n.to_be_bytes().to_vec(),
            Address(bytes) => bytes.to_vec(),
            Text(text, _) => text.to_vec(),
        }
    }

    pub fn set(&mut self, bytes: &[u8]) {
        match self {
            Fixed(_) => {}
            Flags(byte) | Byte(byte, _) => **byte = bytes[0],
            Number(n, _) => **n = u16::from_be_bytes([bytes[0], bytes[1]]),
            Address(address) => address.copy_from_slice(bytes),
            Text(text, _) => **text = bytes.to_vec(),
        }
    }

    // How far it is from plain.
    pub fn odd(&self) -> usize {
        let other = |bytes: &[u8], plain: u8| bytes.iter().filter(|b| **b != plain).count();
        match self {
            Fixed(_) => 0,
            Flags(byte) => byte.count_ones() as usize,
            Byte(byte, plain) => usize::from(!plain.contains(byte)),
            Number(n, plain) => usize::from(**n != *plain),
            Address(bytes) => other(&bytes[..], 0),
            Text(text, plain) => other(text, *plain),
        }
    }
}

impl Opening {
    fn parts(&mut self, with_records: bool) -> Vec<Part<'_>> {
        let mut all = vec![Fixed(vec![self.version]), Flags(&mut self.flags), Number(&mut self.port, 443)];
        all.extend([&mut self.host, &mut self.user, &mut self.password].map(|text| Text(text, b'a')));
        if with_records {
            all.push(Fixed(vec![self.records.len() as u8]));
            all.extend(self.records.iter_mut().flat_map(|(family, bytes)| [Byte(family, &[4]), Address(bytes)]));
        }
        all
    }
}

impl Route {
    fn parts(&mut self) -> Vec<Part<'_>> {
        let Route { flags, port, host, proxies } = self;
        let mut all = vec![Flags(flags), Number(port, 443), Text(host, b'a'), Fixed(vec![proxies.len() as u8])];
        all.extend(proxies.iter_mut().flat_map(|proxy| proxy.parts(false)));
        all
    }
}

impl Row {
    fn parts(&mut self) -> Vec<Part<'_>> {
        match self {
            Row::Session(opening) => [Fixed(vec![b'S'])].into_iter().chain(opening.parts(true)).collect(),
            Row::Route(route, proxy) => {
                let proxy = Byte(proxy, &[1]);
                [Fixed(vec![b'R'])].into_iter().chain(route.parts()).chain([proxy]).collect()
            }
        }
    }
}

impl Call {
    fn parts(&mut self) -> Vec<Part<'_>> {
        let mut all = vec![Fixed(vec![self.letter()])];
        match self {
            Call::Start(lent) | Call::Bound(lent) => all.push(Number(lent, MOST_LENT)),
            Call::Piece(lent, piece) => all.extend([Number(lent, MOST_LENT), Text(piece, 0)]),
            Call::Answer(lent, Answer { status, bound: (family, bytes), port }) => {
                all.extend([Number(lent, MOST_LENT), Byte(status, &[0, 90]), Byte(family, &[4]), Address(bytes)]);
                all.push(Number(port, 443));
            }
            Call::End | Call::Attempts => {}
        }
        all
    }
}

impl Case {
    pub fn letter(&self) -> u8 {
        match &self.kind {
            Kind::Text(letter, _) => *letter,
            Kind::Session(_) => b'S',
            Kind::Route(..) => b'R',
            Kind::End(_) => b'P',
            Kind::Ending(..) => b'E',
            Kind::Captures(..) => b'C',
        }
    }

    pub fn parts(&mut self) -> Vec<Part<'_>> {
        let mut all = vec![Fixed(vec![self.letter()])];
        match &mut self.kind {
            Kind::Text(_, text) => {
                all.push(Text(text, b'a'));
                return all;
            }
            Kind::Session(opening) => all.extend(opening.parts(true)),
            Kind::Route(route, lent) => {
                all.extend(route.parts());
                all.push(Number(lent, MOST_LENT));
            }
            Kind::End(SetUp { flags, user, password }) => {
                all.extend([Flags(flags), Text(user, b'a'), Text(password, b'a')]);
            }
            Kind::Ending(of, Wanted { number, status, lent }) => {
                all.extend(of.parts());
                all.extend([Byte(number, &[0]), Byte(status, &[0]), Number(lent, MOST_LENT)]);
                return all;
            }
            Kind::Captures(opening, captures) => {
                all.extend(opening.parts(true));
                all.push(Fixed(vec![captures.len() as u8]));
                all.extend(captures.iter_mut().map(|capture| Text(capture, 0)));
                return all;
            }
        }
        all.push(Fixed((self.calls.len() as u16).to_be_bytes().to_vec()));
        all.extend(self.calls.iter_mut().flat_map(Call::parts));
        all
    }

    // Without the frame's length.
    pub fn bytes(&self) -> Vec<u8> {
        let mut out = vec![];
        for part in self.clone().parts() {
            if let Text(text, _) = &part {
                out.extend((text.len() as u16).to_be_bytes());
            }
            out.extend(part.bytes());
        }
        out
    }

    pub fn frame(&self) -> Vec<u8> {
        frame(&self.bytes())
    }

    // Cut at its longest texts until it fits its frame.
    pub fn fit(mut self) -> Case {
        loop {
            let over = self.bytes().len().saturating_sub(MOST_BYTES);
            if over == 0 {
                return self;
            }
            let texts = self.parts().into_iter().filter(|part| matches!(part, Text(..)));
            let mut longest = texts.max_by_key(|part| part.bytes().len()).expect("a text");
            let bytes = longest.bytes();
            longest.set(&bytes[..bytes.len().saturating_sub(over)]);
        }
    }
}

pub fn frame(bytes: &[u8]) -> Vec<u8> {
    let n = u16::try_from(bytes.len()).expect("a case of at most 65,535 bytes");
    [&n.to_be_bytes(), bytes].concat()
}

// ---- what a frame holds

pub fn take<'a>(left: &mut &'a [u8], n: usize) -> Option<&'a [u8]> {
    let (taken, rest) = left.split_at_checked(n)?;
    *left = rest;
    Some(taken)
}

pub fn byte(left: &mut &[u8]) -> Option<u8> {
    Some(take(left, 1)?[0])
}

fn number(left: &mut &[u8]) -> Option<u16> {
    Some(u16::from_be_bytes(take(left, 2)?.try_into().ok()?))
}

fn text(left: &mut &[u8]) -> Option<Vec<u8>> {
    let n = number(left)?;
    Some(take(left, n.into())?.to_vec())
}

fn record(left: &mut &[u8]) -> Option<Record> {
    let family = byte(left).filter(|f| [4, 6].contains(f))?;
    Some((family, take(left, 16)?.try_into().ok()?))
}

fn proxy(left: &mut &[u8]) -> Option<Opening> {
    let version = byte(left).filter(|v| [4, 5].contains(v))?;
    let (flags, port) = (byte(left)?, number(left)?);
    let (host, user, password) = (text(left)?, text(left)?, text(left)?);
    Some(Opening { version, flags, port, host, user, password, records: vec![] })
}

fn opening(left: &mut &[u8]) -> Option<Opening> {
    let opening = proxy(left)?;
    let n = byte(left).filter(|n| *n <= MOST_RECORDS)?;
    Some(Opening { records: (0..n).map(|_| record(left)).collect::<Option<_>>()?, ..opening })
}

fn route(left: &mut &[u8]) -> Option<Route> {
    let (flags, port, host) = (byte(left)?, number(left)?, text(left)?);
    let proxies = (0..byte(left)?).map(|_| proxy(left)).collect::<Option<_>>()?;
    Some(Route { flags, port, host, proxies })
}

fn row(left: &mut &[u8]) -> Option<Row> {
    match byte(left)? {
        b'S' => Some(Row::Session(opening(left)?)),
        b'R' => Some(Row::Route(route(left)?, byte(left)?)),
        _ => None,
    }
}

fn wanted(left: &mut &[u8]) -> Option<Wanted> {
    Some(Wanted { number: byte(left)?, status: byte(left)?, lent: number(left)? })
}

fn captures(left: &mut &[u8]) -> Option<Vec<Vec<u8>>> {
    let n = byte(left).filter(|n| [1, 2].contains(n))?;
    (0..n).map(|_| text(left)).collect()
}

// Of these letters.
fn call(left: &mut &[u8], of: &[u8]) -> Option<Call> {
    let letter = byte(left).filter(|letter| of.contains(letter))?;
    Some(match letter {
        b's' => Call::Start(number(left)?),
        b'd' => Call::Piece(number(left)?, text(left)?),
        b'e' => Call::End,
        b'b' => Call::Bound(number(left)?),
        b't' => Call::Attempts,
        _ => Call::Answer(number(left)?, Answer { status: byte(left)?, bound: record(left)?, port: number(left)? }),
    })
}

impl Case {
    // None: it cannot be read, and its line is `bad`.
    pub fn read(bytes: &[u8]) -> Option<Case> {
        let left = &mut { bytes };
        let letter = byte(left)?;
        let (kind, letters): (_, &[u8]) = match letter {
            b'A' | b'H' | b'U' | b'L' => (Kind::Text(letter, text(left)?), b""),
            b'S' => (Kind::Session(opening(left)?), b"sdebt"),
            b'R' => (Kind::Route(route(left)?, number(left)?), b"det"),
            b'P' => (Kind::End(SetUp { flags: byte(left)?, user: text(left)?, password: text(left)? }), b"dea"),
            b'E' => (Kind::Ending(row(left)?, wanted(left)?), b""),
            b'C' => (Kind::Captures(opening(left)?, captures(left)?), b""),
            _ => return None,
        };
        let n = if letters.is_empty() { 0 } else { number(left)? };
        let calls = (0..n).map(|_| call(left, letters)).collect::<Option<_>>()?;
        left.is_empty().then_some(Case { kind, calls })
    }
}

// Two lower-case digits a byte, and `-` for none.
pub fn hex(bytes: &[u8]) -> String {
    use std::fmt::Write;
    if bytes.is_empty() {
        return "-".into();
    }
    let mut s = String::with_capacity(2 * bytes.len());
    for b in bytes {
        write!(s, "{b:02x}").unwrap();
    }
    s
}
