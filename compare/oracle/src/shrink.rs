//! The smallest case, reached by cutting, that still shows a difference.
use crate::case::*;
use crate::draft::capture;
use crate::model::capture::entries;

// Only the first parts are tried one by one.
const TRIED: usize = 200;

// A text without so many bytes at either end: all, a half, a quarter and so on.
fn shorter(text: &[u8]) -> Vec<Vec<u8>> {
    let mut all = vec![];
    let mut n = text.len();
    while n > 0 {
        all.push(text[n..].to_vec());
        all.push(text[..text.len() - n].to_vec());
        n /= 2;
    }
    all
}

// A text plain from a place on, or without one of its first bytes, or with that alone made plain.
fn plainer(text: &[u8], plain: u8) -> Vec<Vec<u8>> {
    let from = |at: usize| [&text[..at], &vec![plain; text.len() - at]].concat();
    let one = |at: usize| {
        let (before, behind) = (&text[..at], &text[at + 1..]);
        [[before, behind].concat(), [before, &[plain], behind].concat()]
    };
    let places = 0..text.len().min(300);
    places.clone().step_by(4).map(from).chain(places.flat_map(one)).collect()
}

// A list without some of its parts.
fn fewer<T: Clone>(list: &[T]) -> Vec<Vec<T>> {
    let mut all = vec![];
    let mut n = list.len();
    while n > 0 {
        all.extend((0..list.len()).step_by(n).map(|at| {
            let end = (at + n).min(list.len());
            [&list[..at], &list[end..]].concat()
        }));
        n /= 2;
    }
    all
}

fn records(kind: &mut Kind) -> Option<&mut Vec<Record>> {
    match kind {
        Kind::Session(of) | Kind::Ending(Row::Session(of), _) | Kind::Captures(of, _) => Some(&mut of.records),
        _ => None,
    }
}

fn proxies(kind: &mut Kind) -> Option<&mut Vec<Opening>> {
    match kind {
        Kind::Route(of, _) | Kind::Ending(Row::Route(of, _), _) => Some(&mut of.proxies),
        _ => None,
    }
}

fn captures(kind: &mut Kind) -> Option<&mut Vec<Vec<u8>>> {
    if let Kind::Captures(_, captures) = kind { Some(captures) } else { None }
}

// What a part may become: fewer bytes, or else plainer ones.
fn ways(part: &Part, coarse: bool) -> Vec<Vec<u8>> {
    match part {
        Part::Text(text, _) if coarse => shorter(text),
        _ if coarse => vec![],
        Part::Text(text, plain) => plainer(text, *plain),
        Part::Flags(flags) => (0..8).map(|bit| vec![**flags & !(1 << bit)]).collect(),
        Part::Byte(_, plain) => plain.iter().map(|byte| vec![*byte]).collect(),
        Part::Number(_, plain) => vec![plain.to_be_bytes().to_vec()],
        Part::Address(_) => vec![vec![0; 16]],
        Part::Fixed(_) => vec![],
    }
}

// Few bytes, then plain values.
fn size(case: &Case) -> usize {
    1000 * case.bytes().len() + case.clone().parts().iter().map(Part::odd).sum::<usize>()
}

// Copies of a case, each changed, as far as that makes it smaller.
struct Smaller<'a>(&'a Case, Vec<Case>);

impl Smaller<'_> {
    fn add(&mut self, change: impl FnOnce(&mut Case)) {
        let mut copy = self.0.clone();
        change(&mut copy);
        if size(&copy) < size(self.0) {
            self.1.push(copy);
        }
    }

    fn parts(&mut self, coarse: bool) {
        for (i, part) in self.0.clone().parts().iter().enumerate().take(TRIED) {
            ways(part, coarse).iter().for_each(|bytes| self.add(|c| c.parts()[i].set(bytes)));
        }
    }

    // By large parts left out.
    fn coarse(&mut self) {
        let case = self.0;
        fewer(&case.calls).into_iter().for_each(|list| self.add(|c| c.calls = list));
        for i in 1..case.calls.len().min(TRIED) {
            self.add(|c| {
                let next = c.calls.remove(i);
                if let (Call::Piece(_, piece), Call::Piece(_, more)) = (&mut c.calls[i - 1], next) {
                    piece.extend(more);
                }
            });
        }
        for list in records(&mut case.kind.clone()).map_or(vec![], |all| fewer(all)) {
            self.add(|c| *records(&mut c.kind).unwrap() = list);
        }
        for list in proxies(&mut case.kind.clone()).map_or(vec![], |all| fewer(all)) {
            self.add(|c| *proxies(&mut c.kind).unwrap() = list);
        }
        for (i, one) in captures(&mut case.kind.clone()).map_or(vec![], |all| all.clone()).iter().enumerate() {
            self.add(|c| captures(&mut c.kind).unwrap().truncate(i.max(1)));
            for list in entries(one).filter(|all| all.len() < TRIED).map_or(vec![], |all| fewer(&all)) {
                self.add(|c| captures(&mut c.kind).unwrap()[i] = capture(&list));
            }
        }
        self.parts(true);
    }
}

// Tells the place of the first of these cases that shows the difference.
pub type Differs<'a> = &'a dyn Fn(&[Case]) -> Option<usize>;

fn smaller(case: &Case, coarse: bool) -> Vec<Case> {
    let mut all = Smaller(case, vec![]);
    if coarse {
        all.coarse()
    } else {
        all.parts(false)
    }
    all.1.sort_by_cached_key(size);
    all.1
}

pub fn shrink(case: &Case, differs: Differs) -> Case {
    let mut best = case.clone();
    let first = |cases: Vec<Case>| cases.chunks(200).find_map(|some| differs(some).map(|at| some[at].clone()));
    while let Some(case) = first(smaller(&best, true)).or_else(|| first(smaller(&best, false))) {
        best = case;
    }
    best
}
