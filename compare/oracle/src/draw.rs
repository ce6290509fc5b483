//! Random numbers and texts.
use std::net::Ipv4Addr;

pub struct Random(u64);

// Where UTF-8 changes its mind: the first and the last byte of each class.
pub const EDGES: [u8; 24] = [
    0x00, 0x7F, 0x80, 0x8F, 0x90, 0x9F, 0xA0, 0xBF, 0xC0, 0xC1, 0xC2, 0xDF, 0xE0, 0xE1, 0xEC, 0xED, 0xEE, 0xEF, 0xF0,
    0xF1, 0xF3, 0xF4, 0xF5, 0xFF,
];

impl Random {
    // Each case has numbers of its own, so that any of them can be made again alone.
    pub fn new(seed: u64, case: u64) -> Self {
        let mut r = Self(seed.wrapping_mul(0x9E37_79B9_7F4A_7C15) ^ case.wrapping_mul(0xD1B5_4A32_D192_ED03) | 1);
        for _ in 0..8 {
            r.next();
        }
        r
    }

    // xorshift64*
    fn next(&mut self) -> u64 {
        self.0 ^= self.0 >> 12;
        self.0 ^= self.0 << 25;
        self.0 ^= self.0 >> 27;
        self.0.wrapping_mul(0x2545_F491_4F6C_DD1D) >> 16
    }

    pub fn below(&mut self, n: usize) -> usize {
        (self.next() % n as u64) as usize
    }

    // True once in n times.
    pub fn once_in(&mut self, n: usize) -> bool {
        self.below(n) == 0
    }

    pub fn one_of<T: Copy>(&mut self, from: &[T]) -> T {
        from[self.below(from.len())]
    }

    pub fn byte(&mut self) -> u8 {
        self.next() as u8
    }

    pub fn bytes(&mut self, n: usize) -> Vec<u8> {
        (0..n).map(|_| self.byte()).collect()
    }

    // Fewer than n.
    pub fn some_bytes(&mut self, n: usize) -> Vec<u8> {
        let n = self.below(n);
        self.bytes(n)
    }

    pub fn text(&mut self, n: usize, alphabet: &[u8]) -> Vec<u8> {
        (0..n).map(|_| self.one_of(alphabet)).collect()
    }

    // ---- address text

    fn number(&mut self) -> String {
        match self.below(8) {
            0 => self.one_of(&["0", "9", "10", "99", "100", "249", "250", "255"]).into(),
            1 if self.once_in(6) => self.one_of(&["", "00", "01", "256", "300", "999", "0255"]).into(),
            _ => self.below(256).to_string(),
        }
    }

    // 0.0.0.x, and addresses beside it.
    pub fn near_zero(&mut self) -> [u8; 4] {
        let last = if self.once_in(2) { self.byte() } else { self.one_of(&[0, 0, 1, 255]) };
        let [a, b, c] = [(); 3].map(|()| if self.once_in(8) { self.one_of(&[1, 255]) } else { 0 });
        [a, b, c, last]
    }

    pub fn ipv4(&mut self) -> String {
        if self.once_in(8) {
            return Ipv4Addr::from(self.near_zero()).to_string();
        }
        let n = if self.once_in(12) { self.below(6) } else { 4 };
        (0..n).map(|_| self.number()).collect::<Vec<_>>().join(".")
    }

    // Rich in zero groups and in short ones, and in the forms that hold an IPv4 address.
    pub fn six(&mut self) -> [u8; 16] {
        let zeros = self.below(8);
        let mut groups = [0u16; 8];
        for group in &mut groups {
            *group = match self.below(8) {
                n if n < zeros => 0,
                n if n % 2 == 0 => self.one_of(&[1, 9, 0xA, 0xF, 0x10, 0xFF, 0x100, 0xFFF, 0x1000, 0xA000, 0xFFFF]),
                _ => self.next() as u16,
            };
        }
        if self.once_in(12) {
            groups[..6].copy_from_slice(&[0, 0, 0, 0, 0, self.one_of(&[0, 0xFFFF, 0xFFFF, 0xFFFE])]);
        }
        std::array::from_fn(|i| groups[i / 2].to_be_bytes()[i % 2])
    }

    pub fn four(&mut self) -> [u8; 4] {
        [(); 4]
            .map(|()| if self.once_in(2) { self.byte() } else { self.one_of(&[0, 1, 9, 10, 99, 100, 199, 200, 255]) })
    }

    pub fn port(&mut self) -> u16 {
        match self.below(3) {
            0 => self.next() as u16,
            _ => self.one_of(&[0, 1, 9, 10, 99, 100, 255, 256, 443, 999, 1000, 9999, 10000, 65535]),
        }
    }

    fn group(&mut self) -> String {
        let n = 1 + self.below(4) + usize::from(self.once_in(40));
        String::from_utf8(self.text(n, b"0000123456789abcdefABCDEF")).unwrap()
    }

    fn groups(&mut self, n: usize) -> String {
        let mut groups: Vec<String> = (0..n).map(|_| self.group()).collect();
        if n > 1 && self.once_in(4) {
            groups.truncate(n - 2);
            groups.push(self.ipv4());
        }
        groups.join(":")
    }

    pub fn ipv6(&mut self) -> String {
        match self.below(4) {
            0 => self.groups(8),
            1 => {
                let n = self.below(10);
                self.groups(n)
            }
            _ => {
                let n = self.below(8);
                let left = self.below(n + 1);
                let before: Vec<String> = (0..left).map(|_| self.group()).collect();
                format!("{}::{}", before.join(":"), self.groups(n - left))
            }
        }
    }

    // ---- UTF-8 and nearly so, of n bytes or somewhat fewer

    pub fn utf8(&mut self, n: usize) -> Vec<u8> {
        let mut s = String::new();
        while s.len() + 4 <= n {
            let top = self.one_of(&[0x7F, 0x7FF, 0xFFFF, 0x10FFFF]);
            let code = match self.below(4) {
                0 => self.one_of(&[0, 0x7F, 0x80, 0x7FF, 0x800, 0xD7FF, 0xE000, 0xFFFF, 0x10000, 0x10FFFF]),
                _ => self.below(top + 1),
            };
            s.extend(char::from_u32(code as u32));
        }
        while s.len() < n {
            s.push('u');
        }
        s.into_bytes()
    }

    // One to three bytes dropped, doubled, put in, changed, or swapped.
    pub fn damaged(&mut self, mut text: Vec<u8>, alphabet: &[u8]) -> Vec<u8> {
        for _ in 0..1 + self.below(3) {
            let b = if self.once_in(8) { self.byte() } else { self.one_of(alphabet) };
            let at = self.below(text.len() + 1);
            if at == text.len() {
                text.push(b);
                continue;
            }
            let other = self.below(text.len());
            match self.below(5) {
                0 => drop(text.remove(at)),
                1 => text.insert(at, text[at]),
                2 => text.insert(at, b),
                3 => text.swap(at, other),
                _ => text[at] = b,
            }
        }
        text
    }
}
