//! load COUNT SEED [bytes]: what the program `load` runs and prints, called from Rust.
use gitaymba::{Credentials, Destination, OUT, Outcome, Session};

const NAME: [u8; 200] = [b'a'; 200];

struct Tally {
    state: u32,
    opened: u64,
    sent: u64,
    sum: u64,
}

impl Tally {
    fn draw(&mut self) -> usize {
        self.state = self.state.wrapping_mul(1664525).wrapping_add(1013904223);
        (self.state >> 16) as usize
    }

    fn add(&mut self, sent: &[u8]) {
        self.sent += sent.len() as u64;
        self.sum += u64::from(sent.iter().map(|b| u32::from(*b)).sum::<u32>());
    }

    fn run_one(&mut self, single: bool, out: &mut [u8; OUT]) -> Result<(), gitaymba::Error> {
        let v5 = self.draw() % 2 == 0;
        let credentials = self.draw() % 2 == 1;
        let name = &NAME[..1 + self.draw() % 200];
        // the replies that open a session
        let (destination, mut replies): (_, &[u8]) = match (v5, credentials) {
            (true, true) => (Destination::v5_with(Credentials::new("a", "a"), name, 443), &[5, 2, 1, 0, 5, 0, 0, 3, 1, 0, 0, 0]),
            (true, false) => (Destination::v5(name, 443), &[5, 0, 5, 0, 0, 3, 1, 0, 0, 0]),
            (false, _) => (Destination::v4(name, 443), &[0, 90, 0, 0, 0, 0, 0, 0]),
        };
        let mut session = Session::prepare(&destination)?;
        let sent = session.start(out)?;
        self.add(&out[..sent]);
        while !replies.is_empty() {
            let n = if single { 1 } else { replies.len().min(1 + self.draw() % 40) };
            let (piece, rest) = replies.split_at(n);
            let progress = session.deliver(piece, out)?;
            self.add(&out[..progress.sent]);
            replies = rest;
        }
        self.opened += u64::from(session.outcome() == Outcome::Open);
        Ok(())
    }
}

fn main() -> Result<(), gitaymba::Error> {
    let args: Vec<String> = std::env::args().collect();
    let (count, seed): (u64, u32) = (args[1].parse().expect("a count"), args[2].parse().expect("a seed"));
    let single = args.get(3).is_some_and(|word| word == "bytes");
    let (mut tally, mut out) = (Tally { state: seed, opened: 0, sent: 0, sum: 0 }, [0; OUT]);
    for _ in 0..count {
        tally.run_one(single, &mut out)?;
    }
    println!("handshakes {count} open {} sent {} sum {}", tally.opened, tally.sent, tally.sum);
    Ok(())
}
