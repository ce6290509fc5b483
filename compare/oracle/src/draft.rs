//! A case being made: a session that is started once, ahead of its deliveries, or a route, or a proxy's end; then, if
//! they are asked for, the end of stream, the bound address's text and the attempts, in this order.
use crate::case::*;
use std::ops::{Deref, DerefMut};

// Beside the flags of the case's kind.
pub const END: u8 = 16;
pub const TEXT: u8 = 32;
pub const ATTEMPTS: u8 = 64;

#[derive(Clone)]
pub struct Draft<K> {
    pub of: K,
    // to the start, or to the route's opening
    pub lent: u16,
    pub calls: Vec<Call>,
    pub last: u8,
    // of the text's buffer
    pub text_lent: u16,
}

pub trait Drafted: Clone {
    // Output that is enough for any call.
    const ENOUGH: u16;
    // Which of the three calls it has.
    const LAST: u8;
    fn flags(&mut self) -> &mut u8;
    fn case(self, lent: u16, calls: Vec<Call>) -> Case;
}

impl Drafted for Opening {
    const ENOUGH: u16 = 2048;
    const LAST: u8 = END | TEXT | ATTEMPTS;

    fn flags(&mut self) -> &mut u8 {
        &mut self.flags
    }

    fn case(self, lent: u16, mut calls: Vec<Call>) -> Case {
        calls.insert(0, Call::Start(lent));
        Case { kind: Kind::Session(self), calls }
    }
}

impl Drafted for Route {
    const ENOUGH: u16 = MOST_LENT;
    const LAST: u8 = END | ATTEMPTS;

    fn flags(&mut self) -> &mut u8 {
        &mut self.flags
    }

    fn case(self, lent: u16, calls: Vec<Call>) -> Case {
        Case { kind: Kind::Route(self, lent), calls }
    }
}

impl Drafted for SetUp {
    const ENOUGH: u16 = 2048;
    const LAST: u8 = END;

    fn flags(&mut self) -> &mut u8 {
        &mut self.flags
    }

    fn case(self, _: u16, calls: Vec<Call>) -> Case {
        Case { kind: Kind::End(self), calls }
    }
}

impl<K> Deref for Draft<K> {
    type Target = K;

    fn deref(&self) -> &K {
        &self.of
    }
}

impl<K> DerefMut for Draft<K> {
    fn deref_mut(&mut self) -> &mut K {
        &mut self.of
    }
}

// Each of these gives another draft.
impl<K: Drafted> Draft<K> {
    pub fn new(of: K) -> Self {
        Draft { of, lent: K::ENOUGH, calls: vec![], last: 0, text_lent: 0 }
    }

    pub fn but(&self, change: impl FnOnce(&mut Self)) -> Self {
        let mut other = self.clone();
        change(&mut other);
        other
    }

    pub fn flag(&self, flags: u8) -> Self {
        self.but(|other| {
            other.last |= flags & K::LAST;
            *other.of.flags() |= flags & !K::LAST;
        })
    }

    pub fn lent(&self, lent: u16) -> Self {
        self.but(|other| other.lent = lent)
    }

    // A delivery that lends so much.
    pub fn piece_lent(&self, lent: u16, piece: &[u8]) -> Self {
        self.but(|other| other.calls.push(Call::Piece(lent, piece.to_vec())))
    }

    pub fn piece(&self, piece: &[u8]) -> Self {
        self.piece_lent(K::ENOUGH, piece)
    }

    pub fn pieces<'a>(&self, pieces: impl IntoIterator<Item = &'a [u8]>) -> Self {
        let all = pieces.into_iter().map(|piece| Call::Piece(K::ENOUGH, piece.to_vec()));
        self.but(|other| other.calls.extend(all))
    }

    pub fn each_byte(&self, stream: &[u8]) -> Self {
        self.pieces(stream.chunks(1))
    }

    // In two at every byte.
    pub fn halves(&self, stream: &[u8]) -> Vec<Self> {
        (1..stream.len()).map(|n| self.piece(&stream[..n]).piece(&stream[n..])).collect()
    }

    pub fn case(&self) -> Case {
        let mut calls = self.calls.clone();
        let last = [(END, Call::End), (TEXT, Call::Bound(self.text_lent)), (ATTEMPTS, Call::Attempts)];
        calls.extend(last.into_iter().filter(|(flag, _)| self.last & flag != 0).map(|(_, call)| call));
        self.of.clone().case(self.lent, calls).fit()
    }
}

// A v5 or v4 opening for a.example.
pub fn base(version: u8) -> Draft<Opening> {
    let (host, none) = (b"a.example".to_vec(), Vec::new);
    Draft::new(Opening { version, flags: PORT, port: 443, host, user: none(), password: none(), records: vec![] })
}

// Of entries, each with whether it goes to the client; none above 32,767 bytes.
pub fn capture<B: AsRef<[u8]>>(entries: &[(bool, B)]) -> Vec<u8> {
    let mut all = vec![];
    for (to_client, bytes) in entries {
        let bytes = bytes.as_ref();
        all.extend((u16::from(*to_client) << 15 | bytes.len() as u16).to_be_bytes());
        all.extend(bytes);
    }
    all
}
