//! What calls to a session come to, or to a route, request F-5's: the plain machines of its openings in turn, over all
//! bytes that were taken. With requests F-1, F-7 and F-11.
use super::session::*;
use super::{Now, Outcome, Side};
use crate::case::*;

pub struct Tunnel {
    // the number that it came back failed with
    refused: Option<u8>,
    // of the sessions in turn
    plans: Vec<Vec<Step>>,
    start_asks: usize,
    asks: usize,
    // what came of those that were begun; none: it is not started
    begun: Vec<State>,
    joined: Vec<u8>,
    ended: bool,
    attempts: usize,
    crosses: bool,
}

// Prepared, or refused.
pub fn session(opening: &Opening) -> Tunnel {
    let refused = Some(prepare(opening)).filter(|number| *number != 0);
    let plans = if refused.is_some() { vec![] } else { vec![plan(opening)] };
    let (start_asks, asks) = (start_asks(opening), delivery_asks(opening));
    Tunnel {
        refused,
        plans,
        start_asks,
        asks,
        begun: vec![],
        joined: vec![],
        ended: false,
        attempts: 0,
        crosses: false,
    }
}

// ---- routes

// Each proxy is asked for the next, the last for the destination; local lookup is off. What a v4 opening is given of
// credentials and the option changes nothing of it.
pub fn openings(route: &Route) -> Vec<Opening> {
    let destination = (route.flags, route.port, &route.host);
    let asked = route.proxies.iter().skip(1).map(|next| (next.flags, next.port, &next.host)).chain([destination]);
    let opening = |(proxy, (flags, port, host)): (&Opening, (u8, u16, &Vec<u8>))| {
        let flags = proxy.flags & (CREDENTIALS | OPTIMISTIC) | flags & PORT;
        Opening { flags, port, host: host.clone(), ..proxy.clone() }
    };
    route.proxies.iter().zip(asked).map(opening).collect()
}

// The output that the opening asks, and each delivery.
pub fn route_asks(route: &Route) -> usize {
    1024 * route.proxies.len()
}

// The number of the first check that refuses, else 0.
pub fn route_check(route: &Route, n: u16) -> u8 {
    if !(1..=8).contains(&route.proxies.len()) {
        21
    } else if lent(n) < route_asks(route) {
        1
    } else {
        openings(route).iter().map(prepare).find(|number| *number != 0).unwrap_or(0)
    }
}

// Open or not, begun with its opening; or refused.
pub fn route(route: &Route, n: u16) -> Tunnel {
    let refused = Some(route_check(route, n)).filter(|number| *number != 0);
    let plans: Vec<_> = if refused.is_some() { vec![] } else { openings(route).iter().map(plan).collect() };
    let (begun, asks) = (in_turn(&plans, &[]), route_asks(route));
    Tunnel { refused, plans, start_asks: asks, asks, begun, joined: vec![], ended: false, attempts: 0, crosses: false }
}

// ---- the machines in turn

// Each is begun when the one before opens, and fed what it left: those that were begun.
pub fn in_turn(plans: &[Vec<Step>], joined: &[u8]) -> Vec<State> {
    let (mut begun, mut left) = (vec![], joined);
    for plan in plans {
        let now = machine(plan, left);
        left = &left[now.used..];
        let opens = now.outcome == Some(0);
        begun.push(now);
        if !opens {
            break;
        }
    }
    begun
}

// Of an accepted delivery: for each session that is handed some of the piece, the replies decided in it, and one more
// if the session then waits.
fn attempts(before: &[State], after: &[State], piece: &[u8]) -> Vec<usize> {
    let (mut left, mut counts) = (piece, vec![]);
    // those ahead of the last one were open before
    for (i, now) in after.iter().enumerate().skip(before.len() - 1) {
        if left.is_empty() {
            break;
        }
        let (used, decided) = before.get(i).map_or((0, 0), |then| (then.used, then.decided));
        counts.push(now.decided - decided + usize::from(now.outcome.is_none()));
        left = &left[now.used - used..];
    }
    counts
}

// ---- calls

impl Tunnel {
    fn outcome(&self) -> Outcome {
        let number = self.begun.last().map_or(self.refused, |now| now.outcome).or(self.ended.then_some(9));
        number.map_or(Outcome::Waiting, Outcome::Settled)
    }

    // Of the bound address, if it is open.
    fn text(&self) -> Option<Vec<u8>> {
        let open = self.begun.last().filter(|_| self.outcome() == Outcome::Settled(0));
        open.and_then(|now| now.bound.as_ref()).map(bound_text)
    }

    fn settled(&self) -> bool {
        self.outcome() != Outcome::Waiting
    }

    fn start(&mut self, n: u16) -> u8 {
        if self.settled() {
            16
        } else if !self.begun.is_empty() {
            22
        } else if lent(n) < self.start_asks {
            1
        } else {
            self.begun = in_turn(&self.plans, &[]);
            0
        }
    }

    // Of a delivery and of an end.
    fn turn(&self) -> u8 {
        if self.settled() {
            16
        } else if self.begun.is_empty() {
            22
        } else {
            0
        }
    }

    fn deliver(&mut self, n: u16, piece: &[u8]) -> u8 {
        if self.turn() != 0 {
            return self.turn();
        }
        if lent(n) < self.asks {
            return 1;
        }
        self.joined.extend(piece);
        let after = in_turn(&self.plans, &self.joined);
        let counts = attempts(&self.begun, &after, piece);
        self.attempts += counts.iter().sum::<usize>();
        self.crosses |= counts.len() > 1;
        self.begun = after;
        0
    }

    fn end(&mut self) -> u8 {
        let number = self.turn();
        self.ended |= number == 0;
        number
    }
}

impl Side for Tunnel {
    fn asks(&self) -> usize {
        self.asks
    }

    fn call(&mut self, call: &Call) -> u8 {
        match call {
            Call::Start(lent) => self.start(*lent),
            Call::Piece(lent, piece) => self.deliver(*lent, piece),
            Call::End => self.end(),
            Call::Bound(n) => match self.text() {
                None => 17,
                Some(text) if lent(*n) < text.len() => 18,
                Some(_) => 0,
            },
            Call::Attempts | Call::Answer(..) => 0,
        }
    }

    fn now(&self) -> Now {
        Now {
            sent: self.begun.iter().flat_map(|now| now.sent.clone()).collect(),
            used: self.begun.iter().map(|now| now.used).sum(),
            outcome: self.outcome(),
            status: self.begun.last().map_or(0, |now| now.status),
            attempts: self.attempts,
            crosses: self.crosses,
            text: self.text(),
            destination: None,
        }
    }
}
