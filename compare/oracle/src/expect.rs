//! The expected line of a case: the model's, held against the original where that can tell. The original runs one
//! session, byte by byte too; it runs for each proxy of a route in turn, on what is left of the pieces behind the bytes
//! that the one before used; and it is the client of a proxy's end, where the bytes that the end used are what it would
//! send; it ends as is wanted where a stream for that is found; it sends on each beginning of what a capture received.
//! It tells sent bytes, outcome, status and used bytes; what else stands in a line is the model's alone.
//! What leaves the comparison shows by what the original does. A session that it ends with `WouldOverflow` goes on here,
//! as the RFCs have it: the model judges it. One whose v4 address announces a name is refused with 23.
use crate::case::*;
use crate::draw::Random;
use crate::generate::session::{bound_replies, replies};
use crate::model::{self, Line, Outcome, Step, capture, ending, line};
use crate::rust::{self, Told};
use std::net::IpAddr;

// Whose word it is.
#[derive(Clone, Copy, PartialEq)]
pub enum Teller {
    Rust,
    // the model alone, as the original ends with `WouldOverflow`
    Beyond,
    Model,
}

// ---- one session

// What an accepted start, these pieces and perhaps the end of stream come to; or what a refused preparing does.
struct Came {
    sent: Vec<u8>,
    outcome: Option<u8>,
    status: u8,
    used: usize,
    teller: Teller,
}

fn machine(of: &Opening, pieces: &[&[u8]], end: bool) -> Came {
    let teller = Teller::Model;
    match model::prepare(of) {
        0 => {
            let now = model::machine(&model::plan(of), &pieces.concat());
            let outcome = now.outcome.or(end.then_some(9));
            Came { sent: now.sent, outcome, status: now.status, used: now.used, teller }
        }
        number => Came { sent: vec![], outcome: Some(number), status: 0, used: 0, teller },
    }
}

fn differs(came: &Came, told: &Told) -> bool {
    came.sent != told.sent || came.outcome != told.outcome || came.status != told.status
}

fn words(told: &Told) -> String {
    let outcome = told.outcome.map_or("waiting".into(), |n| n.to_string());
    format!("sent {} outcome {outcome} status {} taken {}", hex(&told.sent), told.status, told.taken)
}

// The same replies to requests so short that the original sends them all.
fn shortened(of: &Opening) -> Opening {
    let flags = of.flags & !LOCAL_LOOKUP;
    Opening { flags, host: b"a".to_vec(), user: vec![], password: vec![], ..of.clone() }
}

// The machine's, or what the original says against it.
fn session(of: &Opening, pieces: &[&[u8]], end: bool) -> Result<Came, String> {
    let came = machine(of, pieces, end);
    if !rust::in_domain(of) {
        return Ok(came);
    }
    let told = rust::in_pieces(of, pieces, end).ok_or("no Rust string")?;
    if told.announces() {
        return if came.outcome == Some(23) { Ok(came) } else { Err(words(&told)) };
    }
    // what the original still tells there: the requests before, and what the replies come to once the others are sent
    let (beyond, of) = (told.overflows(), if told.overflows() { &shortened(of) } else { of });
    let bytes = rust::in_bytes(of, pieces, end).ok_or("no Rust string")?;
    if beyond && (came.sent.len() <= 262 || !came.sent.starts_with(&told.sent)) || !beyond && differs(&came, &told) {
        return Err(words(&told));
    }
    let said = Told { sent: if beyond { came.sent.clone() } else { bytes.sent }, ..bytes };
    if differs(&came, &said) || came.used != said.taken {
        return Err(format!("byte by byte: {}", words(&said)));
    }
    Ok(Came { teller: if beyond { Teller::Beyond } else { Teller::Rust }, ..came })
}

// ---- what a case brings

// The pieces that lend enough, up to the first end of stream, and whether there is one.
fn script(calls: &[Call], asks: usize) -> (Vec<&[u8]>, bool) {
    let end = calls.iter().position(|call| *call == Call::End);
    let pieces = calls[..end.unwrap_or(calls.len())].iter().filter_map(|call| match call {
        Call::Piece(n, piece) if lent(*n) >= asks => Some(&piece[..]),
        _ => None,
    });
    (pieces.collect(), end.is_some())
}

fn agrees(line: &Line, came: &Came) -> Result<(), String> {
    let outcome = came.outcome.map_or(Outcome::Waiting, Outcome::Settled);
    if (&line.sent, line.outcome, line.status, line.used) == (&came.sent, outcome, came.status, came.used) {
        return Ok(());
    }
    let (sent, outcome) = (hex(&came.sent), outcome.text());
    Err(format!("in turn: sent {sent} outcome {outcome} status {} used {}", came.status, came.used))
}

// From the start that is accepted on; without one there is nothing to tell, unless preparing refuses.
fn one(of: &Opening, calls: &[Call], line: &Line) -> Result<Teller, String> {
    let starts = |call: &Call| matches!(call, Call::Start(n) if lent(*n) >= model::start_asks(of));
    let Some(at) = calls.iter().position(starts).or((line.check != 0).then_some(0)) else {
        return Ok(Teller::Model);
    };
    let (pieces, end) = script(&calls[at..], model::delivery_asks(of));
    let came = session(of, &pieces, end)?;
    agrees(line, &came)?;
    Ok(came.teller)
}

// The pieces without so many bytes at their start.
fn behind<'a>(mut n: usize, pieces: &[&'a [u8]]) -> Vec<&'a [u8]> {
    let cut = |piece: &&'a [u8]| {
        let at = n.min(piece.len());
        n -= at;
        &piece[at..]
    };
    pieces.iter().map(cut).collect()
}

// What a session counts of these pieces.
fn attempts(of: &Opening, pieces: &[&[u8]]) -> usize {
    let pieces = pieces.iter().map(|piece| Call::Piece(MOST_LENT, piece.to_vec()));
    let calls = [Call::Start(MOST_LENT)].into_iter().chain(pieces).collect();
    model::line(&Case { kind: Kind::Session(of.clone()), calls }).attempts
}

fn in_turn(of: &Route, calls: &[Call], line: &Line) -> Result<Teller, String> {
    if [21, 1].contains(&line.check) {
        return Ok(Teller::Model);
    }
    let openings = model::openings(of);
    if line.check != 0 {
        let checked = |opening| session(opening, &[], false).map(|came| came.outcome.unwrap_or(0));
        let number = openings.iter().map(checked).find(|number| *number != Ok(0)).unwrap_or(Ok(0))?;
        return if number == line.check { Ok(Teller::Model) } else { Err(format!("refused with {number}")) };
    }
    let (mut pieces, end) = script(calls, model::route_asks(of));
    let mut all = Came { sent: vec![], outcome: None, status: 0, used: 0, teller: Teller::Rust };
    let mut count = 0;
    for (opening, i) in openings.iter().zip(1..) {
        let came = session(opening, &pieces, end).map_err(|told| format!("proxy {i}: {told}"))?;
        count += attempts(opening, &pieces);
        pieces = behind(came.used, &pieces);
        all.sent.extend(came.sent);
        (all.outcome, all.status, all.used) = (came.outcome, came.status, all.used + came.used);
        if came.teller != Teller::Rust {
            all.teller = Teller::Model;
        }
        if came.outcome != Some(0) {
            break;
        }
    }
    agrees(line, &all)?;
    if count != line.attempts { Err(format!("attempts in turn: {count}")) } else { Ok(all.teller) }
}

// ---- the client of a proxy's end

// What a client that sent these bytes makes of an end that came to this. Over v4 wrong credentials are answered as any
// refusal is.
fn meant(line: &Line, used: &[u8]) -> Option<(u8, u8)> {
    match line.outcome {
        Outcome::Settled(0) => Some((0, 0)),
        Outcome::Settled(12) => Some((12, 0)),
        Outcome::Settled(15) => Some((15, line.status)),
        Outcome::Settled(20) if used.first() == Some(&4) => Some((15, 91)),
        Outcome::Settled(20) => Some((14, 0)),
        _ => None,
    }
}

// The user and password among a v5 client's bytes.
fn credentials(used: &[u8]) -> Option<(Vec<u8>, Vec<u8>)> {
    let mut left = used.strip_prefix(&[5, 1, 2, 1])?;
    let [user, password] = [(); 2].map(|()| {
        let n = byte(&mut left)?;
        Some(take(&mut left, n.into())?.to_vec())
    });
    Some((user?, password?))
}

// The destination as a client is asked for it; any will do for an end that came not so far.
fn host(line: &Line) -> (Vec<u8>, u16) {
    let Some(destination) = &line.destination else {
        return (b"a".to_vec(), 443);
    };
    let bytes = destination.address.clone();
    let text = |ip: IpAddr| ip.to_string().into_bytes();
    let host = match destination.kind {
        '4' => text(<[u8; 4]>::try_from(bytes).expect("four bytes").into()),
        '6' => text(<[u8; 16]>::try_from(bytes).expect("sixteen bytes").into()),
        _ => bytes,
    };
    (host, destination.port)
}

// The client that sends just the bytes used; none if no opening does.
fn client(used: &[u8], line: &Line) -> Option<Opening> {
    let (host, port) = host(line);
    let with = used.starts_with(&[5, 1, 2]);
    let (user, password) = credentials(used).unwrap_or_default();
    let flags = if with { PORT | CREDENTIALS } else { PORT };
    let client = Opening { version: *used.first()?, flags, port, host, user, password, records: vec![] };
    let sends = |step: Step| if let Step::Send(request) = step { Some(request) } else { None };
    let requests: Vec<Vec<u8>> = model::plan(&client).into_iter().filter_map(sends).collect();
    // one whose requests were read whole
    let whole = (1..=requests.len()).any(|n| requests[..n].concat() == used);
    (whole && model::prepare(&client) == 0).then_some(client)
}

// The bytes that an end used, by its deliveries' counts.
fn used(calls: &[Call], line: &Line) -> Vec<u8> {
    let each = calls.iter().zip(&line.calls).map(|(call, entry)| match call {
        Call::Piece(_, piece) => &piece[..entry.counts[0]],
        _ => &[],
    });
    each.collect::<Vec<_>>().concat()
}

fn served(calls: &[Call], line: &Line) -> Result<Teller, String> {
    let used = used(calls, line);
    let Some(((number, status), client)) = meant(line, &used).zip(client(&used, line)) else {
        return Ok(Teller::Model);
    };
    let took = session(&client, &[&line.sent], false)?;
    if (took.outcome, took.status, took.used) != (Some(number), status, line.sent.len()) || took.sent != used {
        return Err(format!("the client: outcome {:?} status {} used {}", took.outcome, took.status, took.used));
    }
    Ok(took.teller)
}

// ---- endings

// Replies at random: for where they end a stream is found, and it is not behind what they used.
fn not_behind(row: &[Opening], r: &mut Random) -> Result<(), String> {
    let fails = r.below(row.len() + 1);
    let each = row.iter().zip(0..).map(|(o, i)| if i < fails { bound_replies(r, o, false) } else { replies(r, o) });
    let mut stream = each.collect::<Vec<_>>().concat();
    if r.once_in(4) {
        stream.truncate(r.below(stream.len() + 1));
    }
    let (ending, used) = ending::ends(row, &stream);
    match ending::stream(row, ending) {
        Some(first) if (first.len(), &first[..]) <= (used, &stream[..used]) => Ok(()),
        _ => Err(format!("{ending:?} by {} too", hex(&stream[..used]))),
    }
}

// What is found, and end of stream behind it, as a case of its session or route: it ends as is wanted, by the original
// too.
fn ended(of: &Row, wanted: &Wanted, r: &mut Random) -> Result<Teller, String> {
    let Ok((row, at)) = ending::row(of) else {
        return Ok(Teller::Model);
    };
    (0..4).try_for_each(|_| not_behind(&row, r))?;
    let ending = (at, wanted.number, wanted.status);
    let Some(stream) = ending::stream(&row, ending) else {
        return Ok(Teller::Model);
    };
    if ending::ends(&row, &stream) != (ending, stream.len()) {
        return Err(format!("{} ends otherwise", hex(&stream)));
    }
    let calls = [Call::Start(MOST_LENT), Call::Piece(MOST_LENT, stream), Call::End];
    let (kind, calls) = match of {
        Row::Session(opening) => (Kind::Session(opening.clone()), &calls[..]),
        Row::Route(route, _) => (Kind::Route(route.clone(), MOST_LENT), &calls[1..]),
    };
    expect(&Case { kind, calls: calls.to_vec() }).map(|(_, teller)| teller)
}

// ---- captures

// The first one in its own order: where sent entries end, no more is sent than a session sends on what was received so
// far; at the end all of it is, the session is open and used all that was received.
fn recorded(of: &Opening, captures: &[Vec<u8>]) -> Result<Teller, String> {
    let told = capture::held(of, captures);
    let Some(entries) = capture::entries(&captures[0]).filter(|_| matches!(told, Ok(_) | Err(26))) else {
        return session(of, &[], false).map(|_| Teller::Model);
    };
    let (mut sent, mut received, mut ahead) = (vec![], vec![], false);
    for (at, (to_client, bytes)) in entries.iter().enumerate() {
        if *to_client { &mut received } else { &mut sent }.extend(*bytes);
        if !to_client && entries.get(at + 1).is_none_or(|next| next.0) {
            ahead |= !session(of, &[&received], false)?.sent.starts_with(&sent);
        }
    }
    let came = session(of, &[&received], false)?;
    let opens = came.outcome == Some(0) && came.used == received.len();
    if told.is_ok() != (opens && !ahead && came.sent == sent) {
        return Err(format!("in its order: opens {opens} ahead {ahead} sends {}", hex(&came.sent)));
    }
    Ok(came.teller)
}

// ---- proxy lines

// The text behind the first bracket, up to the next one.
fn inside(text: &[u8]) -> Option<&[u8]> {
    let at = text.iter().position(|b| *b == b'[')?;
    text[at + 1..].split(|b| *b == b']').next()
}

// The place, where nothing lawful is left too; and a text in brackets, whole and with endings, by the standard library.
fn lined(text: &[u8]) -> Result<Teller, String> {
    let (told, dies) = (line::text(text), line::dies(text));
    if !told.starts_with("0 ") && told != format!("24 {dies}") {
        return Err(format!("nothing is left at {dies}"));
    }
    let Some(inside) = inside(text) else {
        return Ok(Teller::Model);
    };
    for ending in line::SIXES {
        let six = [inside, ending.as_bytes()].concat();
        let parsed = model::address_text(&six).is_some_and(|ip| ip.is_ipv6());
        if line::lawful(&[b"socks4://[", &six[..], b"]:1"].concat()) != parsed {
            return Err(format!("{}: IPv6 is {parsed}", hex(&six)));
        }
    }
    Ok(Teller::Rust)
}

// ---- all kinds

// The line and who tells it, or what the original says against it. The texts' are the standard library's.
pub fn expect(case: &Case) -> Result<(String, Teller), String> {
    if let Kind::Text(b'L', text) = &case.kind {
        return lined(text).map(|teller| (model::text(case), teller));
    }
    if let Kind::Text(..) = case.kind {
        return Ok((model::text(case), Teller::Rust));
    }
    if let Kind::Ending(of, wanted) = &case.kind {
        let seed = case.bytes().iter().map(|b| u64::from(*b)).sum();
        return ended(of, wanted, &mut Random::new(seed, 0)).map(|teller| (model::text(case), teller));
    }
    if let Kind::Captures(of, captures) = &case.kind {
        return recorded(of, captures).map(|teller| (model::text(case), teller));
    }
    let line = model::line(case);
    let teller = match &case.kind {
        Kind::Route(of, _) => in_turn(of, &case.calls, &line),
        Kind::Session(of) => one(of, &case.calls, &line),
        _ => served(&case.calls, &line),
    };
    teller.map(|teller| (line.text(&case.kind), teller))
}
