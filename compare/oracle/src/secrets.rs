//! Request F-6 on `replay`: sessions and routes in pairs, alike but for the bytes of user and password, of equal
//! lengths. The two lines are the same but for the sent bytes, and these are the same but where user and password stand.
use crate::case::*;
use crate::compare::{Figures, Run, ask};
use crate::draw::Random;
use crate::generate;
use crate::model::{Step, openings, plan};

// Pairs.
const BATCH: usize = 2000;
// Of the cases that send no secret one in so many is taken.
const WITHOUT: u64 = 8;
// The places of two fields in a line.
const SENT: usize = 2;
const OUTCOME: usize = 4;

// Users and passwords, also those that no request holds.
fn secrets(case: &mut Case) -> Vec<&mut Vec<u8>> {
    let openings = match &mut case.kind {
        Kind::Session(opening) => std::slice::from_mut(opening),
        Kind::Route(route, _) => &mut route.proxies[..],
        _ => &mut [],
    };
    openings.iter_mut().flat_map(|opening| [&mut opening.user, &mut opening.password]).collect()
}

// Users and passwords that are not empty, and where each stands in all sent bytes once these go so far: behind all
// requests to the proxies before, the greeting, 01 and a length; behind the user and a length.
fn places(case: &Case) -> Vec<(usize, Vec<u8>)> {
    let openings = match &case.kind {
        Kind::Session(opening) => vec![opening.clone()],
        Kind::Route(route, _) => openings(route),
        _ => vec![],
    };
    let length = |step: &Step| if let Step::Send(request) = step { request.len() } else { 0 };
    let (mut at, mut all) = (0, vec![]);
    for opening in openings {
        let requests: usize = plan(&opening).iter().map(length).sum();
        if opening.version == 5 && opening.has(CREDENTIALS) {
            let behind = at + 6 + opening.user.len();
            all.extend([(at + 5, opening.user), (behind, opening.password)]);
        }
        at += requests;
    }
    all.retain(|(_, secret)| !secret.is_empty());
    all
}

// The line with stars for users and passwords among the sent bytes, if they stand there.
fn masked(case: &Case, line: &str) -> Option<String> {
    let mut fields: Vec<String> = line.split(' ').map(String::from).collect();
    let sent = fields.get_mut(SENT)?;
    for (at, secret) in places(case) {
        let place = 2 * at..2 * (at + secret.len());
        if sent.len() >= place.end {
            sent.get(place.clone()).filter(|there| **there == hex(&secret))?;
            sent.replace_range(place, &"*".repeat(2 * secret.len()));
        }
    }
    Some(fields.join(" "))
}

// Changes the byte ahead of the last secret that was sent; answers whether there is one.
fn plant(case: &Case, line: &mut String) -> bool {
    let mut fields: Vec<String> = line.split(' ').map(String::from).collect();
    let sent = fields
        .get_mut(SENT)
        .filter(|sent| masked(case, line).is_some_and(|masked| masked.split(' ').nth(SENT) != Some(sent)));
    let Some(sent) = sent else {
        return false;
    };
    let last = places(case).into_iter().rfind(|(at, secret)| sent.len() >= 2 * (at + secret.len()));
    let digit = 2 * last.map_or(1, |(at, _)| at) - 1;
    let other = if &sent[digit..=digit] == "0" { "1" } else { "0" };
    sent.replace_range(digit..=digit, other);
    *line = fields.join(" ");
    true
}

// ---- pairs

struct Pair {
    cases: [Case; 2],
    lines: [String; 2],
}

impl Pair {
    fn held(&self) -> bool {
        let [one, other] = [0, 1].map(|i| masked(&self.cases[i], &self.lines[i]));
        one.is_some() && one == other
    }

    // In how many bytes the sent bytes differ.
    fn differ(&self) -> usize {
        let [one, other] = [0, 1].map(|i| self.lines[i].split(' ').nth(SENT).unwrap_or_default().as_bytes());
        one.chunks(2).zip(other.chunks(2)).filter(|(a, b)| a != b).count()
    }
}

// The case with other users and passwords, as long.
fn other(case: &Case, seed: u64, number: u64) -> Case {
    let (mut r, mut other) = (Random::new(!seed, number), case.clone());
    for secret in secrets(&mut other) {
        let n = secret.len();
        *secret = match r.below(4) {
            0 => r.utf8(n),
            1 => r.text(n, b"user:PASS 09\0"),
            2 => vec![r.byte(); n],
            _ => r.bytes(n),
        };
    }
    other
}

fn pairs(program: &str, seed: u64, cases: &[(u64, Case)]) -> Vec<Pair> {
    let cases: Vec<_> = cases.iter().map(|(n, case)| [case.clone(), other(case, seed, *n)]).collect();
    let mut lines = ask(program, cases.as_flattened()).into_iter();
    cases.into_iter().map(|cases| Pair { cases, lines: [(); 2].map(|()| lines.next().unwrap_or_default()) }).collect()
}

// Answers the differences, and in how many pairs the sent bytes differ. With a plant, one byte of one line is changed,
// in that pair or the next that can be.
fn of_kind(kind: u8, run: &mut Run, count: u64, program: &str, mut planting: Option<u64>) -> bool {
    let (seed, mut figures, mut some_differ) = (run.seed, Figures::default(), false);
    let taken = |n: u64, case: &Case| n % WITHOUT == WITHOUT - 1 || !places(case).is_empty();
    let mut cases = (0..).map(|n| (n, generate::case(kind, seed, n))).filter(|(n, case)| taken(*n, case));
    for start in (0..count).step_by(BATCH) {
        let some: Vec<_> = cases.by_ref().take(BATCH.min((count - start) as usize)).collect();
        for ((at, (number, case)), mut pair) in (start..).zip(&some).zip(pairs(program, seed, &some)) {
            let planted = planting.is_some_and(|n| n <= at) && plant(&pair.cases[1], &mut pair.lines[1]);
            planting = planting.filter(|_| !planted);
            if pair.held() {
                figures.one("outcomes", pair.lines[0].split(' ').nth(OUTCOME).unwrap_or_default());
                figures.one(
                    "the sent bytes",
                    if pair.differ() > 0 { "differ where user and password stand" } else { "are the same" },
                );
                figures.sum("bytes that differ", pair.differ());
                some_differ |= pair.differ() > 0;
                continue;
            }
            let told = |cases: &[Case]| {
                let cases: Vec<_> = cases.iter().map(|case| (*number, case.clone())).collect();
                let mut all = pairs(program, seed, &cases);
                for pair in all.iter_mut().filter(|_| planted) {
                    plant(&pair.cases[1], &mut pair.lines[1]);
                }
                all
            };
            run.show(*number, case, &|cases| told(cases).iter().position(|pair| !pair.held()), &|small| {
                told(std::slice::from_ref(small)).remove(0).lines.map(|line| format!("line     {line}"))
            });
        }
    }
    println!("{}: {count} pairs\n{}", if kind == b'S' { "sessions" } else { "routes" }, figures.text());
    some_differ
}

// Of sessions and of routes, so many pairs each. Answers whether all is the same, with some sent bytes that differ.
pub fn random(seed: u64, count: u64, program: &str, plant: Option<u64>) -> bool {
    let mut run = Run::new(seed, Some(program), None);
    let some_differ = [b'S', b'R'].map(|kind| of_kind(kind, &mut run, count, program, plant));
    println!("seed {seed}: {} pairs, {} differences", 2 * count, run.differences);
    run.differences == 0 && some_differ == [true; 2]
}
