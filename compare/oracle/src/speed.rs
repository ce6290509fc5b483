//! Programs of ours and the original under the same load, in turn: time and instructions of a handshake. A line for each
//! pair of runs, `PIECES WAY speed OURS ORIGINAL` in handshakes a second, and one for each `PIECES WAY instructions OURS
//! ORIGINAL`; PIECES is drawn or bytes. compare/figures reads them.
use std::process::Command;
use std::time::Instant;

// The C library is told to copy and clear without string instructions, which valgrind counts once a step.
const PLAIN: &str = "glibc.cpu.x86_rep_stosb_threshold=1048576:glibc.cpu.x86_rep_movsb_threshold=1048576";

// What all runs have in common.
#[derive(Clone, Copy)]
struct Load {
    seed: u32,
    bytes: bool,
}

impl Load {
    fn pieces(self) -> &'static str {
        if self.bytes { "bytes" } else { "drawn" }
    }

    // A program's words: itself, `load` for the original, and the load's.
    fn words(self, side: &[&str], count: u64) -> Vec<String> {
        let mut all: Vec<String> = side.iter().map(|part| part.to_string()).collect();
        all.extend([count.to_string(), self.seed.to_string()]);
        all.extend(self.bytes.then(|| "bytes".to_string()));
        all
    }
}

fn run(command: &mut Command) -> Result<(String, String), String> {
    let out = command.output().map_err(|e| format!("{command:?}: {e}"))?;
    let text = |bytes: Vec<u8>| String::from_utf8_lossy(&bytes).into_owned();
    if out.status.success() {
        Ok((text(out.stdout), text(out.stderr)))
    } else {
        Err(format!("{command:?}: {}", text(out.stderr)))
    }
}

// Handshakes a second of the whole program, and its line.
fn timed(load: Load, side: &[&str], count: u64) -> Result<(f64, String), String> {
    let words = load.words(side, count);
    let start = Instant::now();
    let (stdout, _) = run(Command::new(&words[0]).args(&words[1..]))?;
    Ok((count as f64 / start.elapsed().as_secs_f64(), stdout.lines().next().unwrap_or_default().into()))
}

fn instructions(load: Load, side: &[&str], count: u64) -> Result<f64, String> {
    let valgrind = ["--tool=callgrind", "--callgrind-out-file=/dev/null"];
    let (_, stderr) =
        run(Command::new("valgrind").args(valgrind).args(load.words(side, count)).env("GLIBC_TUNABLES", PLAIN))?;
    let found = stderr.lines().find_map(|line| line.split_once("Collected : ")?.1.trim().parse().ok());
    found.ok_or_else(|| format!("valgrind: {stderr}"))
}

// What a handshake costs: two runs, so that starting and ending fall out.
fn each(load: Load, side: &[&str]) -> Result<f64, String> {
    let (few, many) = (1000, 11000);
    Ok((instructions(load, side, many)? - instructions(load, side, few)?) / (many - few) as f64)
}

// Both once, the original first in every other round; they must print the same.
fn pair(load: Load, ours: &[&str], original: &[&str], count: u64, turn: bool) -> Result<(f64, f64), String> {
    let (first, second) = if turn { (original, ours) } else { (ours, original) };
    let ((a, line), (b, told)) = (timed(load, first, count)?, timed(load, second, count)?);
    if line != told {
        return Err(format!("difference: {first:?} {line}, {second:?} {told}"));
    }
    Ok(if turn { (b, a) } else { (a, b) })
}

// WAY=PROGRAM
fn way(text: &str) -> Result<(&str, &str), String> {
    text.split_once('=').ok_or(format!("no way: {text}"))
}

pub fn speed(count: u64, seed: u32, rounds: u64, ways: &[&str]) -> Result<bool, String> {
    let this = std::env::current_exe().map_err(|e| e.to_string())?;
    let original = [this.to_str().ok_or("no path")?, "load"];
    let ways = ways.iter().map(|text| way(text)).collect::<Result<Vec<_>, _>>()?;
    println!("load {count} {seed} {rounds}");
    for bytes in [false, true] {
        let load = Load { seed, bytes };
        for round in 0..rounds {
            for (way, program) in &ways {
                let (a, b) = pair(load, &[program], &original, count, round % 2 == 1)?;
                println!("{} {way} speed {a:.0} {b:.0}", load.pieces());
            }
        }
        let theirs = each(load, &original)?;
        for (way, program) in &ways {
            println!("{} {way} instructions {:.0} {theirs:.0}", load.pieces(), each(load, &[program])?);
        }
    }
    Ok(true)
}
