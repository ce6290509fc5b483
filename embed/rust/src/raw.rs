//! The archive's structs and calls, as gitaymba.h declares them. All `unsafe` of the crate stands here, but for two tests of dropping.
#![allow(unsafe_code)]
use std::mem::offset_of;

/// The number of the interface that is declared here.
const ABI: u32 = 1;
/// The bytes of output that every call of [`Session`](crate::Session) and [`Server`](crate::Server) is lent; what it says it sent
/// stands at their start, and the bytes behind that stay as they were.
pub const OUT: usize = 1024;
/// The bytes of a bound address's text, at most.
pub const TEXT: usize = 261;

pub const STATE_WAITING: u8 = 0;
pub const STATE_OPEN: u8 = 1;
pub const STATE_ASKED: u8 = 3;

pub const KIND_IPV4: u8 = 1;
pub const KIND_NAME: u8 = 3;
pub const KIND_IPV6: u8 = 4;

#[repr(C)]
#[derive(Clone, Copy)]
pub struct Config {
    pub proxy_auth: u8,
    pub local_dns: u8,
    pub optimistic: u8,
}

/// An answer of a lookup: an IP address, from [`IpAddr`](std::net::IpAddr), [`Ipv4Addr`](std::net::Ipv4Addr) or
/// [`Ipv6Addr`](std::net::Ipv6Addr).
#[repr(C)]
#[derive(Clone, Copy, Debug, PartialEq, Eq)]
pub struct Record {
    pub(crate) kind: u8,
    pub(crate) address: [u8; 16],
}

#[repr(C)]
#[derive(Clone, Copy)]
pub struct Outcome {
    pub state: u8,
    pub number: u8,
    pub status: u8,
}

#[repr(C)]
#[derive(Clone, Copy)]
pub struct Session {
    pub attempts: u64,
    pub held: usize,
    pub first: usize,
    pub authentication: usize,
    pub proxy: usize,
    pub port: u16,
    pub kind: u8,
    pub stage: u8,
    pub error: u8,
    pub status: u8,
    pub started: u8,
    pub optimistic: u8,
    pub hold: [u8; 261],
    pub requests: [u8; 1024],
}

#[repr(C)]
pub struct Step {
    pub session: Session,
    pub used: usize,
    pub sent: usize,
    pub answer: u8,
    pub outcome: Outcome,
}

#[repr(C)]
pub struct Address {
    pub port: u16,
    pub kind: u8,
    pub len: u8,
    pub bytes: [u8; 255],
}

#[repr(C)]
pub struct Text {
    pub len: usize,
    pub answer: u8,
}

#[repr(C)]
#[derive(Clone, Copy)]
pub struct Stage {
    pub dstport: u16,
    pub number: u8,
    pub error: u8,
    pub status: u8,
    pub command: u8,
    pub atyp: u8,
    pub first: u8,
    pub second: u8,
    pub third: u8,
    pub fourth: u8,
}

#[repr(C)]
#[derive(Clone, Copy)]
pub struct Server {
    pub held: usize,
    pub stage: Stage,
    pub port: u16,
    pub kind: u8,
    pub authenticates: u8,
    pub userlen: u8,
    pub passlen: u8,
    pub hold: [u8; 1014],
    pub user: [u8; 255],
    pub password: [u8; 255],
}

#[repr(C)]
pub struct Served {
    pub server: Server,
    pub used: usize,
    pub sent: usize,
    pub answer: u8,
    pub outcome: Outcome,
}

#[repr(C)]
pub struct Target {
    pub len: usize,
    pub port: u16,
    pub kind: u8,
    pub bytes: [u8; 1014],
}

/// Asserts a struct's size and the offset of each field. The pattern has no `..`, so that no field can be left out.
macro_rules! layout {
    ($name:ident $size:literal: $($field:ident $offset:literal),+) => {
        const _: () = {
            assert!(size_of::<$name>() == $size);
            $(assert!(offset_of!($name, $field) == $offset);)+
            let _ = |$name { $($field: _),+ }: $name| ();
        };
    };
}

layout!(Config 3: proxy_auth 0, local_dns 1, optimistic 2);
layout!(Record 17: kind 0, address 1);
layout!(Outcome 3: state 0, number 1, status 2);
layout!(Session 1336: attempts 0, held 8, first 16, authentication 24, proxy 32, port 40, kind 42, stage 43, error 44, status 45,
    started 46, optimistic 47, hold 48, requests 309);
layout!(Step 1360: session 0, used 1336, sent 1344, answer 1352, outcome 1353);
layout!(Address 260: port 0, kind 2, len 3, bytes 4);
layout!(Text 16: len 0, answer 8);
layout!(Stage 12: dstport 0, number 2, error 3, status 4, command 5, atyp 6, first 7, second 8, third 9, fourth 10);
layout!(Server 1552: held 0, stage 8, port 20, kind 22, authenticates 23, userlen 24, passlen 25, hold 26, user 1040, password 1295);
layout!(Served 1576: server 0, used 1552, sent 1560, answer 1568, outcome 1569);
layout!(Target 1032: len 0, port 8, kind 10, bytes 11);

// SAFETY: names, arguments and results are gitaymba.h's. The calls that are marked safe take no pointer but a reference to an array of
// the length that the archive writes to at most, and every value of every field of a struct has a meaning to them.
unsafe extern "C" {
    fn gitaymba_prepare5(
        config: Config,
        host: *const u8,
        host_len: usize,
        port: u32,
        user: *const u8,
        user_len: usize,
        password: *const u8,
        password_len: usize,
        records: *const Record,
        records_size: usize,
    ) -> Step;
    fn gitaymba_prepare4(local_dns: u8, host: *const u8, host_len: usize, port: u32, records: *const Record, records_size: usize) -> Step;
    pub safe fn gitaymba_start(session: Session, out: &mut [u8; OUT]) -> Step;
    fn gitaymba_deliver(session: Session, piece: *const u8, piece_len: usize, out: &mut [u8; OUT]) -> Step;
    pub safe fn gitaymba_end(session: Session) -> Step;
    pub safe fn gitaymba_outcome(session: Session) -> Outcome;
    pub safe fn gitaymba_bound(session: Session) -> Address;
    pub safe fn gitaymba_bound_text(session: Session, text: &mut [u8; TEXT]) -> Text;
    pub safe fn gitaymba_attempts(session: Session) -> u64;
    safe fn gitaymba_abi() -> u32;

    fn gitaymba_proxy_set_up(authenticates: u8, user: *const u8, user_len: usize, password: *const u8, password_len: usize) -> Served;
    fn gitaymba_proxy_deliver(server: Server, piece: *const u8, piece_len: usize, out: &mut [u8; OUT]) -> Served;
    pub safe fn gitaymba_proxy_answer(server: Server, status: u8, bound: Record, port: u16, out: &mut [u8; OUT]) -> Served;
    pub safe fn gitaymba_proxy_end(server: Server) -> Served;
    pub safe fn gitaymba_proxy_outcome(server: Server) -> Outcome;
    pub safe fn gitaymba_proxy_destination(server: Server) -> Target;
}

/// An archive with another interface would misread every session.
fn check_abi() {
    assert_eq!(gitaymba_abi(), ABI, "the linked libgitaymba.a has another interface than this crate declares");
}

pub fn prepare5(config: Config, host: &[u8], port: u16, user: &[u8], password: &[u8], records: &[Record]) -> Step {
    check_abi();
    // SAFETY: each pointer comes with the length in bytes of the slice that it is of, and is read during the call only.
    unsafe {
        gitaymba_prepare5(
            config,
            host.as_ptr(),
            host.len(),
            port.into(),
            user.as_ptr(),
            user.len(),
            password.as_ptr(),
            password.len(),
            records.as_ptr(),
            size_of_val(records),
        )
    }
}

pub fn prepare4(local_dns: u8, host: &[u8], port: u16, records: &[Record]) -> Step {
    check_abi();
    // SAFETY: as in prepare5.
    unsafe { gitaymba_prepare4(local_dns, host.as_ptr(), host.len(), port.into(), records.as_ptr(), size_of_val(records)) }
}

pub fn deliver(session: Session, piece: &[u8], out: &mut [u8; OUT]) -> Step {
    // SAFETY: as in prepare5; the output overlaps no input, for it is lent mutably.
    unsafe { gitaymba_deliver(session, piece.as_ptr(), piece.len(), out) }
}

pub fn proxy_set_up(authenticates: u8, user: &[u8], password: &[u8]) -> Served {
    check_abi();
    // SAFETY: as in prepare5.
    unsafe { gitaymba_proxy_set_up(authenticates, user.as_ptr(), user.len(), password.as_ptr(), password.len()) }
}

pub fn proxy_deliver(server: Server, piece: &[u8], out: &mut [u8; OUT]) -> Served {
    // SAFETY: as in deliver.
    unsafe { gitaymba_proxy_deliver(server, piece.as_ptr(), piece.len(), out) }
}

/// Overwrites bytes with zeros, with stores that the compiler does not leave out although nobody reads them.
///
/// For what held credentials, such as the output of a call: a [`Session`](crate::Session) wipes what it stores itself.
pub fn wipe(bytes: &mut [u8]) {
    for byte in bytes {
        // SAFETY: the pointer is of a byte that is lent mutably.
        unsafe { std::ptr::write_volatile(byte, 0) }
    }
}
