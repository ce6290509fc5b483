//! Holds the Rust original, the models and the program `replay` together; see the usage below.
use std::io::Read;
use std::process::ExitCode;
use std::time::Instant;

mod bound;
mod call;
mod case;
#[allow(unused)] // the original, of which only a part is called
mod client;
mod compare;
mod draft;
mod draw;
mod expect;
mod generate;
mod list;
mod load;
mod model;
mod requests;
mod rt;
mod rust;
mod secrets;
mod shrink;
mod speed;
mod standin;

// The original names hyper's `rt`; ours stands in for it.
extern crate self as hyper;

const USAGE: &str = "\
oracle random KIND SEED COUNT [REPLAY [--plant N]]  KIND: run (sessions), route, proxy (the proxy's end), endings,
                                             recordings, lines or texts; the original against the model, and the
                                             program REPLAY against both
oracle bound SEED COUNT [REPLAY [--plant N]] the bound address's text, the model's and REPLAY's, against Rust's Display
oracle secrets SEED COUNT REPLAY [--plant N] pairs of cases with other users and passwords: the program's lines
oracle list DIR                              writes the kept list and its answers, DIR/stdin and DIR/stdout
oracle answers                               what the models say of the cases on standard input
oracle call VERSION URI                      what the original's wrapper sends for a URI
oracle load COUNT SEED [bytes | list]        the load of F-13 on the original, in pieces as drawn or of one byte; a line
                                             for each of its handshakes
oracle speed COUNT SEED ROUNDS WAY=PROGRAM.. and each PROGRAM in turn with it";

fn answers() -> Result<bool, String> {
    let mut input = vec![];
    std::io::stdin().read_to_end(&mut input).map_err(|e| e.to_string())?;
    print!("{}", model::answers(&input));
    Ok(true)
}

fn said(text: String) -> bool {
    println!("{text}");
    true
}

fn timed_load(count: u64, seed: u32, bytes: bool) -> bool {
    let start = Instant::now();
    said(load::load(count, seed, bytes));
    said(format!("seconds {:.3}", start.elapsed().as_secs_f64()))
}

fn number(text: &str) -> Result<u64, String> {
    text.parse().map_err(|_| format!("no number: {text}"))
}

// The program and the case in which a difference is planted, both if they are given.
fn against<'a>(args: &[&'a str]) -> Result<(Option<&'a str>, Option<u64>), String> {
    match *args {
        [] => Ok((None, None)),
        [program] => Ok((Some(program), None)),
        [program, "--plant", n] => Ok((Some(program), Some(number(n)?))),
        _ => Err(USAGE.into()),
    }
}

fn kind(name: &str) -> Result<u8, String> {
    generate::KINDS.iter().find(|kind| kind.0 == name).map(|kind| kind.1).ok_or(USAGE.into())
}

// Whether all is well.
fn run(args: &[&str]) -> Result<bool, String> {
    match args {
        ["random", name, seed, count, rest @ ..] => {
            let (program, plant) = against(rest)?;
            Ok(compare::random(kind(name)?, number(seed)?, number(count)?, program, plant))
        }
        ["bound", seed, count, rest @ ..] => {
            let (program, plant) = against(rest)?;
            Ok(bound::random(number(seed)?, number(count)?, program, plant))
        }
        ["secrets", seed, count, rest @ ..] => {
            let (program, plant) = against(rest)?;
            Ok(secrets::random(number(seed)?, number(count)?, program.ok_or(USAGE)?, plant))
        }
        ["list", dir] => list::write(dir).map(|()| true),
        ["answers"] => answers(),
        ["call", version, uri] => call::call(version, uri).map(said),
        ["load", count, seed] => Ok(timed_load(number(count)?, number(seed)? as u32, false)),
        ["load", count, seed, "bytes"] => Ok(timed_load(number(count)?, number(seed)? as u32, true)),
        ["load", count, seed, "list"] => Ok(said(load::list(number(count)?, number(seed)? as u32).join("\n"))),
        ["speed", count, seed, rounds, ways @ ..] => {
            speed::speed(number(count)?, number(seed)? as u32, number(rounds)?, ways)
        }
        _ => Err(USAGE.into()),
    }
}

fn main() -> ExitCode {
    let args: Vec<String> = std::env::args().skip(1).collect();
    match run(&args.iter().map(String::as_str).collect::<Vec<_>>()) {
        Ok(true) => ExitCode::SUCCESS,
        Ok(false) => ExitCode::FAILURE,
        Err(text) => {
            eprintln!("{text}");
            ExitCode::from(2)
        }
    }
}
