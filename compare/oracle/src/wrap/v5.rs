//! The original's `v5/mod.rs`, and beside it what reaches its private `execute`.
use crate::standin::Lookup as _;
include!("../original/v5/mod.rs");

// A handshake about to begin; with credentials if there are any.
pub fn start<T: Read + Write + Unpin>(
    conn: T,
    host: String,
    port: u16,
    proxy_auth: Option<(String, String)>,
    local_dns: bool,
    optimistic: bool,
) -> impl Future<Output = Result<T, SocksError<()>>> {
    SocksConfig { proxy: Uri::default(), proxy_auth, local_dns, optimistic }.execute(conn, host, port)
}

pub fn number(error: SocksV5Error) -> (u8, u8) {
    match error {
        SocksV5Error::HostTooLong => (6, 0),
        SocksV5Error::Auth(AuthError::Unsupported) => (12, 0),
        SocksV5Error::Auth(AuthError::MethodMismatch) => (13, 0),
        SocksV5Error::Auth(AuthError::Failed) => (14, 0),
        SocksV5Error::Command(status) => (15, byte_of(status)),
    }
}

// The byte that the original reads as this status.
fn byte_of(status: Status) -> u8 {
    (0..=255).find(|b| matches!(Status::try_from(*b), Ok(s) if s == status)).expect("a status of no byte")
}
