//! What the original calls and finds here instead: a lookup, and a method that Debian's `bytes` lacks.
use bytes::BytesMut;
use std::cell::RefCell;
use std::mem::MaybeUninit;
use std::net::SocketAddr;
use std::{io, vec};

thread_local! {
    static RECORDS: RefCell<Vec<std::net::IpAddr>> = const { RefCell::new(Vec::new()) };
}

// What every lookup answers from now on.
pub fn set_records(records: Vec<std::net::IpAddr>) {
    RECORDS.set(records);
}

// Takes `self`, so that it is found before the standard library's, which takes `&self`.
pub trait Lookup {
    fn to_socket_addrs(self) -> io::Result<vec::IntoIter<SocketAddr>>;
}

impl Lookup for (String, u16) {
    fn to_socket_addrs(self) -> io::Result<vec::IntoIter<SocketAddr>> {
        let found: Vec<SocketAddr> =
            RECORDS.with_borrow(|all| all.iter().map(|ip| SocketAddr::new(*ip, self.1)).collect());
        Ok(found.into_iter())
    }
}

// An inherent method of the same name, which later versions of `bytes` have, would be found first.
pub trait Spare {
    fn spare_capacity_mut(&mut self) -> &mut [MaybeUninit<u8>];
}

impl Spare for BytesMut {
    fn spare_capacity_mut(&mut self) -> &mut [MaybeUninit<u8>] {
        let (len, capacity) = (self.len(), self.capacity());
        // SAFETY: these bytes are allocated and belong to this buffer alone; they are lent as not initialised.
        unsafe { std::slice::from_raw_parts_mut(self.as_mut_ptr().add(len).cast(), capacity - len) }
    }
}
