//! The original's `v4/mod.rs`, and beside it what reaches its private `execute`.
use crate::standin::Lookup as _;
include!("../original/v4/mod.rs");

// A handshake about to begin.
pub fn start<T: Read + Write + Unpin>(
    conn: T,
    host: String,
    port: u16,
    local_dns: bool,
) -> impl Future<Output = Result<T, SocksError<()>>> {
    SocksConfig { proxy: Uri::default(), local_dns }.execute(conn, host, port)
}

pub fn number(error: SocksV4Error) -> (u8, u8) {
    match error {
        SocksV4Error::IpV6 => (7, 0),
        SocksV4Error::Command(status) => (15, byte_of(status)),
    }
}

// The byte that the original reads as this status.
fn byte_of(status: Status) -> u8 {
    (0..=255).find(|b| matches!(Status::try_from(*b), Ok(s) if s == status)).expect("a status of no byte")
}
