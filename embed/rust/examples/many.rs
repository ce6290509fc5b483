//! many PROXY_ADDR:PORT 5|4 HOST PORT N EXPECTED_FILE [USER PASSWORD]: N connections through the proxy, one after the other; every byte
//! of each stream is held against the file.
use gitaymba::{Credentials, Destination, Tunnel};
use std::error::Error;
use std::io::{self, Read};
use std::net::TcpStream;
use std::process::ExitCode;
use std::time::Duration;
use std::{env, fs};

/// Longer than any answer takes; without it a lost byte could hang the program.
const LIMIT: Duration = Duration::from_secs(10);

fn connect(proxy: &str, destination: &Destination) -> io::Result<Tunnel<TcpStream>> {
    let stream = TcpStream::connect(proxy)?;
    stream.set_read_timeout(Some(LIMIT))?;
    stream.set_write_timeout(Some(LIMIT))?;
    Tunnel::connect(stream, destination)
}

/// Whether all streams were whole.
fn run(args: &[&str]) -> Result<bool, Box<dyn Error>> {
    let (proxy, destination, count, file) = match *args {
        [proxy, "5", host, port, count, file] => (proxy, Destination::v5(host, port.parse()?), count, file),
        [proxy, "5", host, port, count, file, user, password] => {
            (proxy, Destination::v5_with(Credentials::new(user, password), host, port.parse()?), count, file)
        }
        [proxy, "4", host, port, count, file] => (proxy, Destination::v4(host, port.parse()?), count, file),
        _ => return Err("many PROXY_ADDR:PORT 5|4 HOST PORT N EXPECTED_FILE [USER PASSWORD]".into()),
    };
    let (count, expected) = (count.parse()?, fs::read(file)?);
    let (mut open, mut whole, mut with_rest) = (0, 0, 0);
    for i in 0..count {
        let mut tunnel = match connect(proxy, &destination) {
            Ok(tunnel) => tunnel,
            Err(error) => {
                eprintln!("connection {i}: {error}");
                continue;
            }
        };
        open += 1;
        with_rest += usize::from(!tunnel.leftover().is_empty());
        let mut stream = Vec::new();
        match tunnel.read_to_end(&mut stream) {
            Ok(_) if stream == expected => whole += 1,
            Ok(n) => eprintln!("connection {i}: {n} bytes that are not the file's"),
            Err(error) => eprintln!("connection {i}: {error}"),
        }
    }
    println!("open {open} whole {whole} with-rest {with_rest}");
    Ok(whole == count)
}

fn main() -> ExitCode {
    let args: Vec<String> = env::args().skip(1).collect();
    match run(&args.iter().map(String::as_str).collect::<Vec<_>>()) {
        Ok(true) => ExitCode::SUCCESS,
        Ok(false) => ExitCode::FAILURE,
        Err(error) => {
            eprintln!("{error}");
            ExitCode::FAILURE
        }
    }
}
