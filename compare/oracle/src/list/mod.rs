//! The kept list: texts, sessions, routes, the proxy's end, calls in every order, frames that hold no case; streams for
//! endings, captures, proxy lines, and frames that hold none of these behind each; last, input that ends inside a frame.
use crate::case::*;
use crate::compare::Figures;
use crate::draft::{Draft, Drafted};
use crate::draw::Random;
use crate::expect::expect;
use std::collections::HashSet;
use std::fs;

mod bad;
mod capture;
mod ending;
mod line;
mod orders;
mod proxy;
mod route;
mod session;
mod texts;

// Each case once.
pub struct Kept {
    cases: Vec<Case>,
    seen: HashSet<Vec<u8>>,
}

impl Kept {
    fn add<K: Drafted>(&mut self, draft: Draft<K>) {
        self.put(draft.case());
    }

    fn all<K: Drafted>(&mut self, drafts: impl IntoIterator<Item = Draft<K>>) {
        drafts.into_iter().for_each(|draft| self.add(draft));
    }

    fn parts(&mut self, parts: &[fn(&mut Kept)]) {
        parts.iter().for_each(|part| part(self));
    }

    fn put(&mut self, case: Case) {
        if self.seen.insert(case.bytes()) {
            self.cases.push(case);
        }
    }

    fn text(&mut self, letter: u8, text: &[u8]) {
        self.put(Case { kind: Kind::Text(letter, text.to_vec()), calls: vec![] });
    }

    // So many random cases.
    fn random(&mut self, n: usize, draw: impl Fn(&mut Random) -> Case, wanted: impl Fn(&Case) -> bool) {
        let drawn = (0..).map(|number| draw(&mut Random::new(1, number)));
        drawn.filter(wanted).take(n).for_each(|case| self.put(case));
    }
}

// Bytes in hexadecimal, split by blanks.
fn hexes(texts: &str) -> Vec<Vec<u8>> {
    let byte = |two: &[u8]| u8::from_str_radix(std::str::from_utf8(two).unwrap(), 16).unwrap();
    texts.split_whitespace().map(|text| text.as_bytes().chunks(2).map(byte).collect()).collect()
}

// The two files, as far as they are written.
#[derive(Default)]
struct Files {
    stdin: Vec<u8>,
    stdout: String,
    figures: Figures,
}

impl Files {
    // Fails where the original and the model differ.
    fn cases(&mut self, parts: &[(&str, fn(&mut Kept))]) -> Result<(), String> {
        let mut list = Kept { cases: vec![], seen: HashSet::new() };
        for (name, part) in parts {
            let first = list.cases.len();
            part(&mut list);
            println!("{name}: {} cases", list.cases.len() - first);
        }
        for case in &list.cases {
            let (line, teller) = expect(case).map_err(|told| format!("{}: {told}", hex(&case.bytes())))?;
            self.stdin.extend(case.frame());
            self.stdout += &(line + "\n");
            self.figures.add(case, teller);
        }
        Ok(())
    }

    // Bad, and good ones of one letter.
    fn frames(&mut self, frames: &[Vec<u8>]) {
        for bytes in frames {
            self.stdin.extend(frame(bytes));
            self.stdout += if Case::read(bytes).is_none() { "bad\n" } else { "1\n" };
        }
        println!("bad and beside them: {} frames", frames.len());
    }
}

// Writes the list and its answers, and says what it holds.
pub fn write(dir: &str) -> Result<(), String> {
    let mut files = Files::default();
    files.cases(&[
        ("texts", texts::add),
        ("sessions", session::add),
        ("routes", route::add),
        ("the proxy's end", proxy::add),
        ("orders of calls", orders::add),
    ])?;
    files.frames(&bad::frames());
    files.cases(&[("streams for endings", ending::add)])?;
    files.frames(&ending::bad());
    files.cases(&[("captures", capture::add)])?;
    files.frames(&bad::captures());
    files.cases(&[("proxy lines", line::add)])?;
    files.frames(&line::bad());
    let Files { mut stdin, mut stdout, figures } = files;
    stdin.extend([0, 9, b'U']);
    stdout += "bad\n";
    println!("input that ends inside a frame\n{} bytes, answers {} bytes", stdin.len(), stdout.len());
    println!("{}", figures.text());
    let saved = fs::create_dir_all(dir).and_then(|()| fs::write(format!("{dir}/stdin"), stdin));
    saved.and_then(|()| fs::write(format!("{dir}/stdout"), stdout)).map_err(|e| format!("{dir}: {e}"))
}
