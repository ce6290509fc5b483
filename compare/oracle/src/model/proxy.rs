//! The proxy's end, request F-3, over all bytes that were taken. Written from the words of document 02.
use super::{Destination, Now, Outcome, Side};
use crate::case::*;

const OUTPUT: usize = 262;

const LONGEST_USER_ID: usize = 255;
const LONGEST_NAME4: usize = 1014;

// ---- set-up

// 5 as in an opening, else 0.
pub fn check(of: &SetUp) -> u8 {
    if of.has(CREDENTIALS) && of.user.len().max(of.password.len()) > 255 { 5 } else { 0 }
}

// ---- what the client sends

// Why no destination is handed out: bytes are missing, or it failed with a number and a status.
enum Stop {
    Waiting,
    Failed(u8, u8),
}

type Read<T> = Result<T, Stop>;

struct Stream<'a> {
    of: &'a SetUp,
    left: &'a [u8],
    sent: Vec<u8>,
}

// 19 unless this holds.
fn lawful(holds: bool) -> Read<()> {
    if holds { Ok(()) } else { Err(Stop::Failed(19, 0)) }
}

impl<'a> Stream<'a> {
    fn take(&mut self, n: usize) -> Read<&'a [u8]> {
        let (taken, left) = self.left.split_at_checked(n).ok_or(Stop::Waiting)?;
        self.left = left;
        Ok(taken)
    }

    fn byte(&mut self) -> Read<u8> {
        Ok(self.take(1)?[0])
    }

    fn port(&mut self) -> Read<u16> {
        let port = self.take(2)?;
        Ok(u16::from_be_bytes([port[0], port[1]]))
    }

    // A length byte and as many bytes.
    fn counted(&mut self) -> Read<&'a [u8]> {
        let n = self.byte()?;
        self.take(n.into())
    }

    // At most so many bytes, and the `00` behind them.
    fn closed(&mut self, most: usize) -> Read<Vec<u8>> {
        let mut text = vec![];
        loop {
            match self.byte()? {
                0 => return Ok(text),
                b => text.push(b),
            }
            lawful(text.len() <= most)?;
        }
    }

    fn fail<T>(&mut self, reply: &[u8], number: u8, status: u8) -> Read<T> {
        self.sent.extend(reply);
        Err(Stop::Failed(number, status))
    }

    fn requests(&mut self) -> Read<Destination> {
        let version = self.byte()?;
        lawful([4, 5].contains(&version))?;
        if version == 4 {
            return self.request4();
        }
        self.greeting()?;
        if self.of.has(CREDENTIALS) {
            self.credentials()?;
        }
        self.connect()
    }

    // Behind its first byte.
    fn greeting(&mut self) -> Read<()> {
        let n = self.byte()?;
        lawful(n != 0)?;
        let methods = self.take(n.into())?;
        let chosen = if self.of.has(CREDENTIALS) { 2 } else { 0 };
        if !methods.contains(&chosen) {
            return self.fail(&[5, 0xFF], 12, 0);
        }
        self.sent.extend([5, chosen]);
        Ok(())
    }

    fn credentials(&mut self) -> Read<()> {
        let version = self.byte()?;
        lawful(version == 1)?;
        let (user, password) = (self.counted()?, self.counted()?);
        if user != self.of.user || password != self.of.password {
            return self.fail(&[1, 1], 20, 0);
        }
        self.sent.extend([1, 0]);
        Ok(())
    }

    fn connect(&mut self) -> Read<Destination> {
        let version = self.byte()?;
        lawful(version == 5)?;
        let command = self.byte()?;
        let reserved = self.byte()?;
        lawful(reserved == 0)?;
        let (kind, n) = match self.byte()? {
            1 => ('4', 4),
            4 => ('6', 16),
            3 => ('n', self.byte()?.into()),
            _ => return self.fail(&own5(8), 15, 8),
        };
        lawful(n != 0)?;
        let address = self.take(n)?.to_vec();
        let port = self.port()?;
        if command != 1 {
            return self.fail(&own5(7), 15, 7);
        }
        Ok(Destination { kind, address, port })
    }

    // Behind its first byte.
    fn request4(&mut self) -> Read<Destination> {
        let command = self.byte()?;
        let port = self.port()?;
        let address = self.take(4)?;
        self.closed(LONGEST_USER_ID)?;
        let (kind, address) = match address {
            [0, 0, 0, 1..=255] => ('n', self.closed(LONGEST_NAME4)?),
            _ => ('4', address.to_vec()),
        };
        lawful(!address.is_empty())?;
        if self.of.has(CREDENTIALS) {
            return self.fail(&own4(91), 20, 0);
        }
        if command != 1 {
            return self.fail(&own4(91), 15, 91);
        }
        Ok(Destination { kind, address, port })
    }
}

// ---- replies

fn reply5(status: u8, (family, address): &Record, port: u16) -> Vec<u8> {
    let address = if *family == 4 { [&[1], &address[..4]].concat() } else { [&[4], &address[..]].concat() };
    [&[5, status, 0], &address[..], &port.to_be_bytes()].concat()
}

fn reply4(status: u8, (family, address): &Record, port: u16) -> Vec<u8> {
    let address = if *family == 4 { &address[..4] } else { &[0; 4] };
    [&[0, status], &port.to_be_bytes()[..], address].concat()
}

// Of its own: IPv4 zeros and port 0.
fn own5(status: u8) -> Vec<u8> {
    reply5(status, &(4, [0; 16]), 0)
}

fn own4(status: u8) -> Vec<u8> {
    reply4(status, &(4, [0; 16]), 0)
}

// The caller's answer: the reply, and the status sent if it is no success.
fn answered(version: u8, Answer { status, bound, port }: &Answer) -> (Vec<u8>, Option<u8>) {
    if version == 5 {
        let status = if *status <= 8 { *status } else { 1 };
        (reply5(status, bound, *port), Some(status).filter(|status| *status != 0))
    } else {
        let status = if (90..=93).contains(status) { *status } else { 91 };
        (reply4(status, bound, *port), Some(status).filter(|status| *status != 90))
    }
}

// ---- the end

// What all bytes taken, and the caller's answer if it was taken, have come to.
fn state(of: &SetUp, taken: &[u8], answer: Option<&Answer>) -> Now {
    let mut now = Now::default();
    if check(of) != 0 {
        now.outcome = Outcome::Settled(check(of));
        return now;
    }
    let mut stream = Stream { of, left: taken, sent: vec![] };
    let read = stream.requests();
    (now.used, now.sent) = (taken.len() - stream.left.len(), stream.sent);
    match read {
        Err(Stop::Waiting) => now.used = taken.len(),
        Err(Stop::Failed(number, status)) => (now.outcome, now.status) = (Outcome::Settled(number), status),
        Ok(destination) => (now.outcome, now.destination) = (Outcome::Asked, Some(destination)),
    }
    if let Some(answer) = answer {
        let (reply, failed) = answered(taken[0], answer);
        now.sent.extend(reply);
        now.outcome = Outcome::Settled(if failed.is_some() { 15 } else { 0 });
        now.status = failed.unwrap_or(0);
    }
    now
}

pub struct End<'a> {
    of: &'a SetUp,
    taken: Vec<u8>,
    answer: Option<Answer>,
    now: Now,
}

pub fn end(of: &SetUp) -> End<'_> {
    End { of, taken: vec![], answer: None, now: state(of, &[], None) }
}

impl End<'_> {
    // 16 for a call out of turn, then 1 for too little output.
    fn refused(&self, call: &Call) -> Option<u8> {
        let (turn, short) = match call {
            Call::Answer(n, _) => (Outcome::Asked, lent(*n) < OUTPUT),
            Call::Piece(n, _) => (Outcome::Waiting, lent(*n) < OUTPUT),
            _ => (Outcome::Waiting, false),
        };
        if self.now.outcome != turn { Some(16) } else { short.then_some(1) }
    }
}

impl Side for End<'_> {
    fn asks(&self) -> usize {
        OUTPUT
    }

    fn call(&mut self, call: &Call) -> u8 {
        if let Some(number) = self.refused(call) {
            return number;
        }
        match call {
            Call::Piece(_, piece) => self.taken.extend(piece),
            Call::Answer(_, answer) => self.answer = Some(answer.clone()),
            _ => {
                self.now.outcome = Outcome::Settled(9);
                return 0;
            }
        }
        self.now = state(self.of, &self.taken, self.answer.as_ref());
        0
    }

    fn now(&self) -> Now {
        self.now.clone()
    }
}
