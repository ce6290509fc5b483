//! Request F-10 by joined bytes and places: each direction's bytes joined, for each sent byte the received bytes that
//! stand before it, and the grammar of the opening's replies. Nothing is fed to anything.
use super::session::{Step, plan, prepare};
use crate::case::*;

// Whether it goes to the client, and its bytes.
pub type Entry<'a> = (bool, &'a [u8]);

// None: one runs past the end.
pub fn entries(mut capture: &[u8]) -> Option<Vec<Entry<'_>>> {
    let mut all = vec![];
    while !capture.is_empty() {
        let header = take(&mut capture, 2)?;
        let length = u16::from_be_bytes([header[0] & 0x7F, header[1]]);
        all.push((header[0] & 0x80 != 0, take(&mut capture, length.into())?));
    }
    Some(all)
}

// ---- what an opening has

// Each in its turn.
pub fn requests(of: &Opening) -> Vec<Vec<u8>> {
    let sends = |step| if let Step::Send(request) = step { Some(request) } else { None };
    plan(of).into_iter().filter_map(sends).collect()
}

// How many bytes are received when the request of this number, from 0, is due: so many replies, each but the last of
// them all two bytes long. None if it goes optimistically.
pub fn due(of: &Opening, number: usize) -> usize {
    if of.has(OPTIMISTIC) { 0 } else { 2 * number }
}

// The replies that open, by their bytes.
fn opens(of: &Opening, received: &[u8]) -> bool {
    if of.version == 4 {
        return received.len() == 8 && received.starts_with(&[0, 0x5A]);
    }
    let start: &[u8] = if of.has(CREDENTIALS) { &[5, 2, 1, 0] } else { &[5, 0] };
    match received.strip_prefix(start) {
        Some([5, 0, 0, 1, rest @ ..]) => rest.len() == 6,
        Some([5, 0, 0, 4, rest @ ..]) => rest.len() == 18,
        Some([5, 0, 0, 3, n @ 1..=255, rest @ ..]) => {
            let (n, all) = (usize::from(*n), rest.len());
            all == n + 2 && std::str::from_utf8(&rest[..n]).is_ok()
        }
        _ => false,
    }
}

// ---- a capture

#[derive(Default)]
pub struct Joined {
    pub sent: Vec<u8>,
    pub received: Vec<u8>,
    // for each sent byte, how many received ones stand before it
    pub before: Vec<usize>,
}

pub fn joined(entries: &[Entry]) -> Joined {
    let mut all = Joined::default();
    for (to_client, bytes) in entries {
        if *to_client {
            all.received.extend(*bytes);
        } else {
            all.sent.extend(*bytes);
            all.before.extend(vec![all.received.len(); bytes.len()]);
        }
    }
    all
}

fn accepted(of: &Opening, capture: &Joined) -> bool {
    let requests = requests(of);
    let dues = requests.iter().enumerate().flat_map(|(number, request)| vec![due(of, number); request.len()]);
    opens(of, &capture.received)
        && capture.sent == requests.concat()
        && capture.before.iter().zip(dues).all(|(before, due)| *before >= due)
}

fn alike(one: &Joined, other: &Joined) -> bool {
    one.sent == other.sent && one.received == other.received
}

// ---- a case

// The number of the first check that refuses, or whether two are alike.
pub fn held(of: &Opening, captures: &[Vec<u8>]) -> Result<Option<bool>, u8> {
    let number = prepare(of);
    if number != 0 {
        return Err(number);
    }
    let all = captures.iter().map(|capture| entries(capture).map(|all| joined(&all)));
    match &all.collect::<Option<Vec<_>>>().ok_or(25)?[..] {
        [first, ..] if !accepted(of, first) => Err(26),
        [first, second] => Ok(Some(alike(first, second))),
        _ => Ok(None),
    }
}

pub fn text(of: &Opening, captures: &[Vec<u8>]) -> String {
    match held(of, captures) {
        Err(number) => format!("{number} -"),
        Ok(None) => "0 -".into(),
        Ok(Some(alike)) => format!("0 {}", u8::from(alike)),
    }
}
