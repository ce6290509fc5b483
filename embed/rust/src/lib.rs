//! A proved SOCKS4, SOCKS4a and SOCKS5 handshake over any stream, that loses no byte behind the proxy's reply.
//!
//! What follows the last reply belongs to the destination, wherever a read ends. [`connect`] hands those bytes back beside the stream,
//! and a [`Tunnel`] reads them first. Here a proxy sends its reply and the stream in one write:
//!
//! ```
//! use gitaymba::{Destination, Tunnel};
//! use std::io::{Read, Write};
//! use std::net::{TcpListener, TcpStream};
//!
//! let listener = TcpListener::bind("127.0.0.1:0")?;
//! let address = listener.local_addr()?;
//! let proxy = std::thread::spawn(move || -> std::io::Result<()> {
//!     let (mut client, _) = listener.accept()?;
//!     client.read_exact(&mut [0; 3])?; // the greeting
//!     client.write_all(&[5, 0])?;
//!     client.read_exact(&mut [0; 18])?; // the connect request, with an 11-byte name
//!     client.write_all(b"\x05\x00\x00\x01\xc0\x00\x02\x07\x1f\x90SSH-2.0\r\n")
//! });
//!
//! let stream = TcpStream::connect(address)?;
//! let mut tunnel = Tunnel::connect(stream, &Destination::v5("example.com", 22))?;
//! let mut text = String::new();
//! tunnel.read_to_string(&mut text)?;
//! assert_eq!(text, "SSH-2.0\r\n");
//! proxy.join().unwrap()?;
//! # Ok::<(), std::io::Error>(())
//! ```
//!
//! [`Session`] is the handshake apart from any stream, for an event loop: the caller reads and writes. [`Server`] is the proxy's end of
//! it, and [`accept`] that end over a stream.
//!
//! The handshake is a proved C archive without state, input, output or allocation, for x86-64 with the System V ABI. What this crate adds
//! is not proved: the declarations of the archive's calls, whose layouts are asserted when it is compiled, and the loops over streams.
#![deny(unsafe_code, unsafe_op_in_unsafe_fn, missing_docs)]

#[cfg(not(all(target_arch = "x86_64", unix)))]
compile_error!("libgitaymba.a is for x86-64 with the System V ABI");

mod destination;
mod error;
mod raw;
mod server;
mod session;
mod stream;

pub use destination::{Address, Config, Credentials, Destination};
pub use error::Error;
pub use raw::{OUT, Record, wipe};
pub use server::{Server, ServerOutcome};
pub use session::{Outcome, Progress, Session};
pub use stream::{Tunnel, accept, connect};
