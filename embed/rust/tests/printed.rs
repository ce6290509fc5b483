//! The program in docs/RUST.md is built and run as it is printed; it wants port 1080 of 127.0.0.1.
use std::io::{self, Read, Write};
use std::net::{Shutdown, TcpListener};
use std::path::{Path, PathBuf};
use std::process::Command;
use std::{env, fs, thread};

/// The program, built without a warning over this crate.
fn built() -> PathBuf {
    let here = Path::new(env!("CARGO_MANIFEST_DIR"));
    let page = fs::read_to_string(here.join("../../docs/RUST.md")).expect("there is a docs/RUST.md");
    let (_, block) = page.split_once("```rust\n").expect("the page has a Rust block");
    let (program, _) = block.split_once("```").expect("the block has an end");
    let folder = Path::new(env!("CARGO_TARGET_TMPDIR")).join("printed");
    fs::create_dir_all(folder.join("src")).unwrap();
    fs::write(folder.join("src/main.rs"), program).unwrap();
    let manifest = format!(
        "[package]\nname = \"printed\"\nedition = \"2024\"\n[dependencies]\ngitaymba.path = {:?}\n[workspace]\n",
        here.canonicalize().unwrap()
    );
    fs::write(folder.join("Cargo.toml"), manifest).unwrap();
    let status = Command::new(env!("CARGO"))
        .args(["build", "--offline", "--quiet", "--target-dir", "target"])
        .current_dir(&folder)
        .env("RUSTFLAGS", "-Dwarnings")
        .status()
        .unwrap();
    assert!(status.success());
    folder.join("target/debug/printed")
}

/// A proxy for one client: its last reply and the stream go in one write. Answers what the client sent through it.
fn served(listener: TcpListener, stream: &[u8]) -> io::Result<Vec<u8>> {
    let (mut client, _) = listener.accept()?;
    client.read_exact(&mut [0; 3])?; // the greeting
    client.write_all(&[5, 0])?;
    client.read_exact(&mut [0; 18])?; // the connect request, with an 11-byte name
    client.write_all(&[b"\x05\x00\x00\x01\xc0\x00\x02\x07\x1f\x90", stream].concat())?;
    client.shutdown(Shutdown::Write)?;
    let mut through = Vec::new();
    client.read_to_end(&mut through)?;
    Ok(through)
}

#[test]
fn the_printed_program_runs() {
    const STREAM: &[u8] = b"HTTP/1.0 204 No Content\r\n\r\n";
    let program = built();
    let listener = TcpListener::bind("127.0.0.1:1080").expect("the program's proxy is at 127.0.0.1:1080");
    let proxy = thread::spawn(move || served(listener, STREAM));
    let output = Command::new(program).output().unwrap();
    assert!(output.status.success());
    assert_eq!(output.stdout, STREAM);
    assert_eq!(proxy.join().unwrap().unwrap(), b"HEAD / HTTP/1.0\r\nHost: example.com\r\n\r\n");
}
