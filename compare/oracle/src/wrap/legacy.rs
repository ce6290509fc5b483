//! Stands for `client/legacy/mod.rs`: the way down to the original's `socks`, which is read as it is.
pub mod connect {
    pub mod proxy {
        pub mod socks {
            use crate::standin::Spare as _;
            include!("connect/proxy/socks/mod.rs");

            pub use v4::start as start4;
            pub use v5::start as start5;

            pub fn strip(host: &str) -> &str {
                crate::client::strip_ipv6_brackets(host)
            }

            // Document 01's number and status of an error.
            pub fn number<C>(error: SocksError<C>) -> (u8, u8) {
                match error {
                    SocksError::Io(e) if e.kind() == std::io::ErrorKind::UnexpectedEof => (9, 0),
                    SocksError::Parsing(_) => (10, 0),
                    SocksError::Serialize(_) => (11, 0),
                    SocksError::DnsFailure => (8, 0),
                    SocksError::V4(e) => v4::number(e),
                    SocksError::V5(e) => v5::number(e),
                    SocksError::Io(_) | SocksError::Inner(_) | SocksError::MissingHost | SocksError::MissingPort => {
                        panic!("an error that the scripted connection does not make")
                    }
                }
            }
        }
    }
}
