//! calls COUNT WHAT: COUNT rounds of a call from the same session; prints nanoseconds a round.
//!
//!   clone    a session is cloned and dropped, and with it wiped: what start, byte and open do beside their call
//!   prepare  v5, credentials, a name; and dropped
//!   start    of that session
//!   byte     a delivery that decides nothing
//!   open     a delivery of the last reply
//!   nothing  no call
//!   outcome  of an open session
use gitaymba::{Credentials, Destination, Error, OUT, Outcome, Session};
use std::hint::black_box;
use std::time::Instant;

const LAST: [u8; 8] = [5, 0, 0, 3, 1, b'a', 0, 0];

fn prepare() -> Result<Session, Error> {
    Session::prepare(&Destination::v5_with(Credentials::new("alice", "wonder"), "www.example.com", 443))
}

fn main() -> Result<(), Error> {
    let args: Vec<String> = std::env::args().collect();
    let (count, what) = (args[1].parse::<u32>().expect("a count"), &args[2][..]);
    let mut out = [0; OUT];
    let prepared = prepare()?;
    let mut started = prepared.clone();
    started.start(&mut out)?;
    let mut awaits = started.clone();
    awaits.deliver(&[5, 2, 1, 0], &mut out)?;
    let mut open = awaits.clone();
    open.deliver(&LAST, &mut out)?;
    assert_eq!(open.outcome(), Outcome::Open);

    let mut run: Box<dyn FnMut() -> Result<(), Error>> = match what {
        "nothing" => Box::new(|| Ok(black_box(()))),
        "clone" => Box::new(|| Ok(drop(black_box(black_box(&started).clone())))),
        "prepare" => Box::new(|| prepare().map(|session| drop(black_box(session)))),
        "start" => Box::new(|| black_box(&prepared).clone().start(&mut out).map(|sent| assert_eq!(sent, 3))),
        "byte" => Box::new(|| black_box(&started).clone().deliver(&LAST[..1], &mut out).map(|progress| assert_eq!(progress.used, 1))),
        "open" => Box::new(|| black_box(&awaits).clone().deliver(&LAST, &mut out).map(|progress| assert_eq!(progress.used, 8))),
        "outcome" => Box::new(|| Ok(assert_eq!(black_box(&open).outcome(), Outcome::Open))),
        _ => panic!("no such call: {what}"),
    };
    let start = Instant::now();
    for _ in 0..count {
        run()?;
    }
    println!("{:.1}", start.elapsed().as_nanos() as f64 / f64::from(count));
    Ok(())
}
