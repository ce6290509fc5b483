//! The errors against the library's own table.
use gitaymba::Error;
use std::io::{self, ErrorKind};

/// Name and number of each error, as the library's source has them.
fn table() -> Vec<(String, u8)> {
    let path = concat!(env!("CARGO_MANIFEST_DIR"), "/../../crates/error_numbers/src/lib.rt");
    let source = std::fs::read_to_string(path).unwrap();
    let arms = source.lines().filter_map(|line| line.trim().strip_prefix("SocksError::")?.split_once(" => "));
    // the arms of `number`: those of `status` have no number
    arms.filter_map(|(pattern, value)| {
        let name = pattern.split('(').next().unwrap().to_string();
        Some((name, value.trim_end_matches(',').parse().ok()?))
    })
    .collect()
}

#[test]
fn numbers_and_names_are_the_librarys() {
    let table = table();
    assert!(table.len() >= 23);
    for number in 0..=255 {
        let found = Error::from_number(number, 9);
        let wanted = table.iter().find(|entry| entry.1 == number);
        assert_eq!(found.map(Error::number), wanted.map(|entry| entry.1));
        let name = found.map(|error| format!("{error:?}").trim_end_matches("(9)").to_string());
        assert_eq!(name, wanted.map(|entry| entry.0.clone()));
    }
    assert_eq!(Error::from_number(15, 5), Some(Error::Command(5)));
}

#[test]
fn texts_differ() {
    let errors = (0..=255).filter_map(|number| Error::from_number(number, 1)).chain((0..=255).map(Error::Command));
    let mut texts: Vec<_> = errors.map(|error| error.to_string()).collect();
    texts.sort();
    texts.dedup();
    assert_eq!(texts.len(), table().len() - 1 + 256);
    assert_eq!(Error::Command(5).to_string(), "the host refused the proxy's connection (status 5)");
}

#[test]
fn io_errors_keep_the_error() {
    for (error, kind) in [
        (Error::UnexpectedEof, ErrorKind::UnexpectedEof),
        (Error::Parsing, ErrorKind::InvalidData),
        (Error::Failed, ErrorKind::PermissionDenied),
        (Error::Command(5), ErrorKind::ConnectionRefused),
        (Error::MissingHost, ErrorKind::InvalidInput),
    ] {
        let io = io::Error::from(error);
        assert_eq!(io.kind(), kind);
        assert_eq!(io.get_ref().unwrap().downcast_ref::<Error>(), Some(&error));
    }
}
