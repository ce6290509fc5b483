//! The load of request F-13, on the original.
use crate::client::legacy::connect::proxy::socks;
use crate::rt::{Read, ReadBufCursor, Write};
use std::io::Result;
use std::pin::{Pin, pin};
use std::task::{Context, Poll, Waker};

// The longest replies: with credentials.
const MOST: usize = 12;
const CONNECT_REPLY: [u8; 8] = [5, 0, 0, 3, 1, 0, 0, 0];
const REPLY4: [u8; 8] = [0, 90, 0, 0, 0, 0, 0, 0];
const NAME: &str = match std::str::from_utf8(&[0x61; 200]) {
    Ok(name) => name,
    Err(_) => panic!(),
};

struct Draws(u32);

// What is drawn for a handshake ahead of its pieces.
struct Choice {
    version4: bool,
    credentials: bool,
    name: usize,
}

impl Draws {
    fn draw(&mut self) -> usize {
        self.0 = self.0.wrapping_mul(1664525).wrapping_add(1013904223);
        (self.0 >> 16) as usize
    }

    fn choose(&mut self) -> Choice {
        Choice { version4: self.draw() % 2 == 1, credentials: self.draw() % 2 == 1, name: 1 + self.draw() % 200 }
    }
}

// The replies and the ends of their pieces; what is written is counted and summed.
struct Wire {
    replies: [u8; MOST],
    ends: [usize; MOST],
    at: usize,
    next: usize,
    sent: u64,
    sum: u64,
}

impl Read for Wire {
    fn poll_read(mut self: Pin<&mut Self>, _: &mut Context<'_>, buf: ReadBufCursor<'_>) -> Poll<Result<()>> {
        let end = self.ends[self.next];
        buf.fill(&self.replies[self.at..end]);
        (self.at, self.next) = (end, self.next + 1);
        Poll::Ready(Ok(()))
    }
}

impl Write for Wire {
    fn poll_write(mut self: Pin<&mut Self>, _: &mut Context<'_>, buf: &[u8]) -> Poll<Result<usize>> {
        self.sent += buf.len() as u64;
        // in 32 bits, as ours: a message is short
        self.sum += u64::from(buf.iter().map(|b| u32::from(*b)).sum::<u32>());
        Poll::Ready(Ok(buf.len()))
    }
}

impl Wire {
    fn new() -> Wire {
        Wire { replies: [0; MOST], ends: [0; MOST], at: 0, next: 0, sent: 0, sum: 0 }
    }

    // The replies of one handshake, joined; answers their length.
    fn fill(&mut self, choice: &Choice) -> usize {
        let (start, last): (&[u8], _) = match (choice.version4, choice.credentials) {
            (true, _) => (&[], REPLY4),
            (false, false) => (&[5, 0], CONNECT_REPLY),
            (false, true) => (&[5, 2, 1, 0], CONNECT_REPLY),
        };
        let end = start.len() + last.len();
        self.replies[..start.len()].copy_from_slice(start);
        self.replies[start.len()..end].copy_from_slice(&last);
        end
    }

    // The ends of the pieces; answers how many there are.
    fn cut(&mut self, length: usize, draws: &mut Draws, bytes: bool) -> usize {
        (self.at, self.next) = (0, 0);
        let (mut end, mut n) = (0, 0);
        while end < length {
            end = length.min(end + if bytes { 1 } else { 1 + draws.draw() % 40 });
            self.ends[n] = end;
            n += 1;
        }
        n
    }
}

fn opens<T>(handshake: impl Future<Output = std::result::Result<T, socks::SocksError<()>>>) -> bool {
    let mut cx = Context::from_waker(Waker::noop());
    matches!(pin!(handshake).poll(&mut cx), Poll::Ready(Ok(_)))
}

fn handshake(wire: &mut Wire, draws: &mut Draws, bytes: bool) -> bool {
    let choice = draws.choose();
    let length = wire.fill(&choice);
    wire.cut(length, draws, bytes);
    let name = NAME[..choice.name].to_string();
    if choice.version4 {
        return opens(socks::start4(wire, name, 443, false));
    }
    let auth = choice.credentials.then(|| ("a".to_string(), "a".to_string()));
    opens(socks::start5(wire, name, 443, auth, false, false))
}

// The line that the program `load` prints too.
pub fn load(count: u64, seed: u32, bytes: bool) -> String {
    let (mut wire, mut draws) = (Wire::new(), Draws(seed));
    let open = (0..count).filter(|_| handshake(&mut wire, &mut draws, bytes)).count();
    format!("handshakes {count} open {open} sent {} sum {}", wire.sent, wire.sum)
}

// A handshake of the list: version, credentials as used, the name's length, the replies, the pieces' lengths.
fn listed(wire: &mut Wire, draws: &mut Draws) -> String {
    let choice = draws.choose();
    let length = wire.fill(&choice);
    let n = wire.cut(length, draws, false);
    let (version, credentials) = if choice.version4 { (4, 0) } else { (5, u8::from(choice.credentials)) };
    let replies: String = wire.replies[..length].iter().map(|b| format!("{b:02x}")).collect();
    let starts = std::iter::once(&0).chain(&wire.ends);
    let pieces: Vec<String> = wire.ends[..n].iter().zip(starts).map(|(end, start)| (end - start).to_string()).collect();
    format!("{version} {credentials} {} {replies} {}", choice.name, pieces.join(","))
}

// The lines that `load COUNT SEED list` prints too.
pub fn list(count: u64, seed: u32) -> Vec<String> {
    let (mut wire, mut draws) = (Wire::new(), Draws(seed));
    (0..count).map(|_| listed(&mut wire, &mut draws)).collect()
}
