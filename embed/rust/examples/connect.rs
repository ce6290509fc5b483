//! connect PROXY_HOST:PORT 5|4 HOST PORT [USER PASSWORD]: through the proxy to HOST, and the stream to standard output.
use gitaymba::{Credentials, Destination, Tunnel};
use std::env;
use std::error::Error;
use std::io;
use std::net::TcpStream;
use std::process::ExitCode;

fn run(args: &[&str]) -> Result<(), Box<dyn Error>> {
    let (proxy, destination) = match *args {
        [proxy, "5", host, port] => (proxy, Destination::v5(host, port.parse()?)),
        [proxy, "5", host, port, user, password] => (proxy, Destination::v5_with(Credentials::new(user, password), host, port.parse()?)),
        [proxy, "4", host, port] => (proxy, Destination::v4(host, port.parse()?)),
        _ => return Err("connect PROXY_HOST:PORT 5|4 HOST PORT [USER PASSWORD]".into()),
    };
    let mut tunnel = Tunnel::connect(TcpStream::connect(proxy)?, &destination)?;
    eprintln!("open, bound {}, {} bytes of the stream came with the reply", tunnel.bound(), tunnel.leftover().len());
    io::copy(&mut tunnel, &mut io::stdout())?;
    Ok(())
}

fn main() -> ExitCode {
    let args: Vec<String> = env::args().skip(1).collect();
    match run(&args.iter().map(String::as_str).collect::<Vec<_>>()) {
        Ok(()) => ExitCode::SUCCESS,
        Err(error) => {
            eprintln!("{error}");
            ExitCode::FAILURE
        }
    }
}
