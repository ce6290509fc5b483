//! Cases of all kinds: the original and the model against each other, and `replay` against both.
use crate::case::*;
use crate::draft::base;
use crate::draw::Random;
use crate::expect::{Teller, expect};
use crate::generate;
use crate::model::{self, Line, Outcome, capture, ending};
use crate::shrink::{Differs, shrink};
use std::collections::BTreeMap;
use std::io::Write;
use std::process::{Command, Stdio};
use std::thread;
use std::time::Instant;

// Small enough for flat memory, large enough that starting the program costs nothing.
const BATCH: u64 = 4000;
// Differences that are cut down; the others are counted.
const SHOWN: usize = 10;
// One damaged frame to so many cases.
const DAMAGED: u64 = 20;

// ---- the program

pub fn run(program: &str, input: Vec<u8>) -> Vec<String> {
    let mut child = Command::new(program)
        .stdin(Stdio::piped())
        .stdout(Stdio::piped())
        .spawn()
        .unwrap_or_else(|e| panic!("{program}: {e}"));
    let mut stdin = child.stdin.take().unwrap();
    // it may stop before its input ends
    let writer = thread::spawn(move || stdin.write_all(&input).is_ok());
    let output = child.wait_with_output().unwrap();
    writer.join().unwrap();
    let mut lines: Vec<String> = String::from_utf8_lossy(&output.stdout).lines().map(String::from).collect();
    if !output.status.success() {
        lines.push(format!("({})", output.status));
    }
    lines
}

// A line for each case; where it stops too soon, it begins anew behind the case that stopped it.
pub fn ask(program: &str, cases: &[Case]) -> Vec<String> {
    let mut lines: Vec<String> = vec![];
    while lines.len() < cases.len() {
        let left = &cases[lines.len()..];
        let more = run(program, left.iter().flat_map(Case::frame).collect());
        let stopped = more.is_empty();
        lines.extend(more);
        if stopped {
            lines.push("(no line)".into());
        }
    }
    lines.truncate(cases.len());
    lines
}

// ---- the expected side

// The line with one byte changed, if it has such: the last that was sent, a stream's, or the answer of a text or of
// captures.
fn plant(case: &Case, line: &str) -> Option<String> {
    let mut fields: Vec<String> = line.split(' ').map(String::from).collect();
    let field = match case.kind {
        Kind::Text(..) | Kind::Ending(..) => fields.last_mut(),
        Kind::Captures(..) => fields.first_mut(),
        _ => fields.get_mut(2),
    }?;
    let last = field.pop().filter(|c| *c != '-')?;
    field.push(if last == '0' { '1' } else { '0' });
    Some(fields.join(" "))
}

fn expected(case: &Case, planted: bool) -> Option<String> {
    let (line, _) = expect(case).ok()?;
    if planted { plant(case, &line) } else { Some(line) }
}

// Where the program and the expected side first differ; a line that is not there differs too.
fn first_difference(program: &str, cases: &[Case], planted: bool) -> Option<usize> {
    let lines = ask(program, cases);
    (0..cases.len()).find(|at| expected(&cases[*at], planted).is_some_and(|text| lines[*at] != text))
}

// ---- the attempts

// How many more attempts than accepted deliveries of nonempty pieces.
fn excess(case: &Case, line: &Line) -> isize {
    let brought = case.calls.iter().zip(&line.calls).filter(|(call, entry)| match call {
        Call::Piece(_, piece) => entry.number == 0 && !piece.is_empty(),
        _ => false,
    });
    line.attempts as isize - brought.count() as isize
}

// At most three more for a session by request F-11, and each of these deliveries is an attempt; for a route three more
// for each proxy, and one more where a piece goes on to the next.
fn miscounted(case: &Case) -> Option<String> {
    let most = match &case.kind {
        Kind::Session(_) => 3,
        Kind::Route(route, _) => (4 * route.proxies.len() as isize - 1).max(0),
        _ => return None,
    };
    let excess = excess(case, &model::line(case));
    (!(0..=most).contains(&excess)).then(|| format!("attempts: above the deliveries by {excess}"))
}

// ---- figures

// What a row of cases came to.
#[derive(Default)]
pub struct Figures {
    rows: BTreeMap<&'static str, BTreeMap<String, usize>>,
    most: BTreeMap<&'static str, usize>,
}

// Numbers before words, and by their size.
fn sorted(row: &BTreeMap<String, usize>) -> String {
    let mut all: Vec<_> = row.iter().collect();
    all.sort_by_key(|(name, _)| (name.split(' ').next().and_then(|n| n.parse().ok()).unwrap_or(i32::MAX), *name));
    all.iter().map(|(name, n)| format!("{name}: {n}")).collect::<Vec<_>>().join(", ")
}

impl Figures {
    pub fn one(&mut self, row: &'static str, name: impl ToString) {
        *self.rows.entry(row).or_default().entry(name.to_string()).or_default() += 1;
    }

    pub fn sum(&mut self, row: &'static str, n: usize) {
        *self.most.entry(row).or_default() += n;
    }

    fn most(&mut self, row: &'static str, n: usize) {
        let most = self.most.entry(row).or_default();
        *most = n.max(*most);
    }

    pub fn add(&mut self, case: &Case, teller: Teller) {
        self.sum("bytes in all", case.bytes().len());
        if let Kind::Text(b'L', text) = &case.kind {
            return self.line(text, &model::text(case), teller);
        }
        if let Kind::Text(letter, _) = &case.kind {
            let answer = if *letter == b'H' { "" } else { &model::text(case)[..1] };
            return self.one("texts", format!("{} {answer}", char::from(*letter)));
        }
        let by = match teller {
            Teller::Rust => "the Rust too",
            Teller::Beyond => "the model where the Rust ends with WouldOverflow",
            Teller::Model => "the model alone",
        };
        self.one("told by", by);
        if let Kind::Ending(of, wanted) = &case.kind {
            return self.ending(of, wanted, &model::text(case));
        }
        if let Kind::Captures(of, captures) = &case.kind {
            return self.captures(of, captures, &model::text(case));
        }
        let line = model::line(case);
        self.one("checks", line.check);
        let status = if line.status == 0 { String::new() } else { format!(" {}", line.status) };
        self.one("outcomes with statuses", format!("{}{status}", line.outcome.text()));
        for (call, entry) in case.calls.iter().zip(&line.calls) {
            match call {
                Call::Start(_) => self.one("answers of starts", entry.number),
                Call::Piece(..) => self.one("answers of deliveries", entry.number),
                Call::End => self.one("answers of ends", entry.number),
                Call::Bound(_) => self.one("answers of the text", entry.number),
                Call::Attempts => self.one("attempts told", if entry.number == 0 { "none" } else { "some" }),
                Call::Answer(..) => self.one("answers of the caller's answer", entry.number),
            }
        }
        match &case.kind {
            Kind::Route(route, _) => {
                let open = if line.outcome == Outcome::Settled(0) { " open" } else { "" };
                self.one("proxies", format!("{}{open}", route.proxies.len()));
                self.sum("routes in which a piece goes on to the next proxy", usize::from(line.crosses));
            }
            Kind::End(_) => self.one("destinations", line.destination.as_ref().map_or('-', |d| d.kind)),
            _ if matches!(case.calls.first(), Some(Call::Start(_))) => self.one("first calls", "a start"),
            _ => self.one("first calls", "another"),
        }
        self.most("sent at most", line.sent.len());
        self.most("calls at most", case.calls.len());
        self.most("attempts at most", line.attempts);
        if !matches!(case.kind, Kind::End(_)) {
            self.one("attempts above the accepted deliveries of nonempty pieces", excess(case, &line));
        }
    }

    fn ending(&mut self, of: &Row, wanted: &Wanted, line: &str) {
        self.one("answers", line.split(' ').next().unwrap_or_default());
        if line.starts_with("0 ") {
            self.one("endings with statuses", format!("{} {}", wanted.number, wanted.status));
        }
        let of = match of {
            Row::Session(_) => "a session".into(),
            Row::Route(route, _) => format!("{} proxies", route.proxies.len()),
        };
        self.one("endings of", of);
    }

    fn captures(&mut self, of: &Opening, captures: &[Vec<u8>], line: &str) {
        let (answer, alike) = line.split_once(' ').unwrap_or_default();
        self.one("answers to captures", answer);
        self.one("captures alike", alike);
        let entries = captures.iter().filter_map(|capture| capture::entries(capture));
        self.most("entries at most", entries.map(|all| all.len()).max().unwrap_or(0));
        if line.starts_with("0 ") {
            let with = if of.version == 5 && of.has(CREDENTIALS) { " with credentials" } else { "" };
            let ahead = if of.version == 5 && of.has(OPTIMISTIC) { " optimistically" } else { "" };
            self.one("accepted over", format!("v{}{with}{ahead}", of.version));
        }
    }

    fn line(&mut self, text: &[u8], line: &str, teller: Teller) {
        let fields: Vec<&str> = line.split(' ').collect();
        match fields[..] {
            [_, place] if place == text.len().to_string() => self.one("lines", "24 as it stops short"),
            [_, place] => {
                let before = &text[..place.parse::<usize>().expect("a number")];
                let at = |sign: u8| before.iter().rposition(|b| *b == sign);
                let part = match (at(b'['), at(b']'), at(b'@'), at(b'/')) {
                    (Some(_), None, ..) => "in brackets",
                    (Some(_), ..) => "behind brackets",
                    (_, _, Some(_), _) => "behind credentials",
                    (.., Some(_)) => "behind the scheme",
                    _ => "in the scheme",
                };
                self.one("lines", "24 inside");
                self.one("places", part);
            }
            _ => {
                self.one("lines", "0");
                self.one("version, lookup and credentials", fields[1..4].join(" "));
            }
        }
        if teller == Teller::Rust {
            self.sum("lines with a text in brackets, of which the Rust tells", 1);
        }
    }

    pub fn text(&self) -> String {
        let rows = self.rows.iter().map(|(name, row)| format!("{name}: {}", sorted(row)));
        rows.chain(self.most.iter().map(|(name, n)| format!("{name}: {n}"))).collect::<Vec<_>>().join("\n")
    }
}

// ---- a run

pub struct Run {
    pub seed: u64,
    // none: the original and the model alone
    program: Option<String>,
    plant: Option<u64>,
    pub differences: usize,
    shown: Vec<Case>,
}

impl Run {
    pub fn new(seed: u64, program: Option<&str>, plant: Option<u64>) -> Run {
        Run { seed, program: program.map(String::from), plant, differences: 0, shown: vec![] }
    }

    // A difference, cut to its smallest input; told once if several come to the same.
    pub fn show(&mut self, number: u64, case: &Case, differs: Differs, rows: &dyn Fn(&Case) -> [String; 2]) {
        self.differences += 1;
        if self.differences > SHOWN {
            return;
        }
        let small = shrink(case, differs);
        if self.shown.contains(&small) {
            return;
        }
        let [one, other] = rows(&small);
        println!("difference: case {number} of seed {}, cut to the smallest input", self.seed);
        println!("  case     {}\n  {one}\n  {other}", hex(&small.bytes()));
        self.shown.push(small);
    }

    // The original against the model, and the model's attempts against their bound; answers the line if they agree.
    fn check(&mut self, number: u64, case: &Case) -> Option<(String, Teller)> {
        let against = |case: &Case| miscounted(case).or(expect(case).err());
        let wanted = expect(case).ok().filter(|_| miscounted(case).is_none());
        if wanted.is_none() {
            self.show(number, case, &|cases| cases.iter().position(|c| against(c).is_some()), &|small| {
                [format!("model    {}", model::text(small)), format!("rust     {}", against(small).unwrap_or_default())]
            });
        }
        wanted
    }

    // The program against both.
    fn hold(&mut self, number: u64, case: &Case, mut wanted: String, line: &str) {
        let Some(program) = self.program.clone() else {
            return;
        };
        let planted = self.plant.filter(|n| *n <= number).and_then(|_| plant(case, &wanted));
        if let Some(line) = &planted {
            (self.plant, wanted) = (None, line.clone());
        }
        if wanted == line {
            return;
        }
        let planted = planted.is_some();
        self.show(number, case, &|cases| first_difference(&program, cases, planted), &|small| {
            let answer = ask(&program, std::slice::from_ref(small)).remove(0);
            let wanted = expected(small, planted).unwrap_or_default();
            [format!("expected {wanted}"), format!("program  {answer}")]
        });
    }

    fn batch(&mut self, first: u64, cases: &[Case], figures: &mut Figures) {
        let lines = match &self.program {
            Some(program) => ask(program, cases),
            None => vec![String::new(); cases.len()],
        };
        for ((number, case), line) in (first..).zip(cases).zip(&lines) {
            if let Some((wanted, teller)) = self.check(number, case) {
                figures.add(case, teller);
                self.hold(number, case, wanted, line);
            }
        }
    }
}

// ---- frames that are not what the encoder makes

// The input's lines are the model's.
fn same(program: &str, input: Vec<u8>) -> bool {
    let wanted: Vec<String> = model::answers(&input).lines().map(String::from).collect();
    run(program, input) == wanted
}

// Frames changed, cut and lengthened in a few bytes; answers how many came out wrong.
fn damaged(program: &str, kind: u8, seed: u64, count: u64) -> usize {
    let frames: Vec<Vec<u8>> = (0..count)
        .map(|n| {
            let mut r = Random::new(!seed, n);
            let bytes = generate::case(kind, seed, n).bytes();
            // near its start most of a case is decided
            let at = if r.once_in(2) { r.below(bytes.len().min(60) + 1) } else { r.below(bytes.len() + 1) };
            let (before, behind) = bytes.split_at(at);
            let (there, behind) = behind.split_at(behind.len().min(6));
            let other = r.damaged(there.to_vec(), b"\0\x01\x02\x04\x05\x06\x09sdebtawAHUSRPECL");
            let bytes = match r.below(8) {
                0 => before.to_vec(),
                1 => [&bytes[..], &r.some_bytes(4)].concat(),
                _ => [before, &other, behind].concat(),
            };
            frame(&bytes[..bytes.len().min(MOST_BYTES)])
        })
        .collect();
    let read = frames.iter().filter(|frame| Case::read(&frame[2..]).is_some()).count();
    let mut lines = run(program, frames.concat()).into_iter();
    let mut differs = |frame: &&Vec<u8>| lines.next().unwrap_or_default() != model::answers(frame).trim_end();
    let wrong: Vec<_> = frames.iter().filter(&mut differs).collect();
    wrong.iter().take(SHOWN).for_each(|frame| println!("difference: {}", hex(frame)));
    let wrong = wrong.len();
    println!("damaged frames: {}, {read} of them a case still, {wrong} answered wrongly", frames.len());
    wrong
}

// Every way that the input may end inside a frame: its first, behind a good one, and behind a bad one.
fn cut_short(program: &str, kind: u8, seed: u64) -> usize {
    let small = |case: &Case| case.bytes().len() < 120 && (!generate::has_calls(kind) || case.calls.len() > 1);
    let case = (0..).map(|n| generate::case(kind, seed, n)).find(small).expect("a small case");
    let (good, bad) = (case.frame(), frame(b"X"));
    let behind =
        |n: usize| [vec![], good.clone(), [&good[..], &bad].concat()].map(|ahead| [&ahead, &good[..n]].concat());
    let ways: Vec<_> = (0..good.len()).flat_map(behind).collect();
    let wrong = ways.iter().filter(|input| !same(program, input.to_vec())).count();
    println!("input that ends inside a frame: {} ways, {wrong} answered wrongly", ways.len());
    wrong
}

// ---- rows that are searched whole

// Every ending that can be asked for: as the machines are searched one by one. Answers how many differ.
fn whole_rows() -> usize {
    let (plain, with, four) = (|| base(5).of, || base(5).flag(CREDENTIALS).of, || base(4).of);
    let rows = [vec![plain(), with()], vec![with(), four()], vec![four(), plain()], vec![four(), four(), four()]];
    let mut wrong = 0;
    for row in &rows {
        let whole = ending::whole(row);
        let all = (0..row.len() + 2).flat_map(|at| (0..=u16::MAX).map(move |n| (at, (n >> 8) as u8, n as u8)));
        wrong += all.filter(|ending| ending::stream(row, *ending).as_ref() != whole.get(ending)).count();
    }
    println!("rows searched whole: {}, {wrong} endings differ", rows.len());
    wrong
}

// Answers whether all is the same. Without the program: the original and the model alone.
pub fn random(kind: u8, seed: u64, count: u64, program: Option<&str>, plant: Option<u64>) -> bool {
    let mut run = Run::new(seed, program, plant);
    let (mut figures, mut told) = (Figures::default(), Instant::now());
    for start in (0..count).step_by(BATCH as usize) {
        let end = (start + BATCH).min(count);
        run.batch(start, &(start..end).map(|n| generate::case(kind, seed, n)).collect::<Vec<_>>(), &mut figures);
        if told.elapsed().as_secs() >= 5 {
            told = Instant::now();
            eprintln!("compare: {end} of {count} cases, {} differences", run.differences);
        }
    }
    println!("{}", figures.text());
    if kind == b'E' {
        run.differences += whole_rows();
    }
    if let Some(program) = program {
        run.differences += damaged(program, kind, seed, count / DAMAGED) + cut_short(program, kind, seed);
    }
    println!("seed {seed}: {count} cases, {} differences", run.differences);
    run.differences == 0
}
