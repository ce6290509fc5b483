//! The original's wrapper `call`, over a connector that answers nothing: what it sends for a URI.
use crate::client::legacy::connect::proxy::socks::{SocksError, SocksV4, SocksV5};
use crate::rt::{Read, ReadBufCursor, Write};
use http::Uri;
use std::future::{Ready, ready};
use std::io::Result;
use std::pin::{Pin, pin};
use std::sync::{Arc, Mutex};
use std::task::{Context, Poll, Waker};
use tower_service::Service;

#[derive(Clone, Default)]
struct Silent(Arc<Mutex<Vec<u8>>>);

impl Read for Silent {
    fn poll_read(self: Pin<&mut Self>, _: &mut Context<'_>, _: ReadBufCursor<'_>) -> Poll<Result<()>> {
        Poll::Pending
    }
}

impl Write for Silent {
    fn poll_write(self: Pin<&mut Self>, _: &mut Context<'_>, buf: &[u8]) -> Poll<Result<usize>> {
        self.0.lock().unwrap().extend(buf);
        Poll::Ready(Ok(buf.len()))
    }
}

impl Service<Uri> for Silent {
    type Response = Silent;
    type Error = ();
    type Future = Ready<std::result::Result<Silent, ()>>;

    fn poll_ready(&mut self, _: &mut Context<'_>) -> Poll<std::result::Result<(), ()>> {
        Poll::Ready(Ok(()))
    }

    fn call(&mut self, _: Uri) -> Self::Future {
        ready(Ok(self.clone()))
    }
}

fn poll(call: impl Future<Output = std::result::Result<Silent, SocksError<()>>>) -> String {
    match pin!(call).poll(&mut Context::from_waker(Waker::noop())) {
        Poll::Pending => "waits".into(),
        Poll::Ready(Ok(_)) => "open".into(),
        Poll::Ready(Err(error)) => format!("{error:?}"),
    }
}

// All requests at once, so that they show.
pub fn call(version: &str, uri: &str) -> std::result::Result<String, String> {
    let uri: Uri = uri.parse().map_err(|e| format!("{uri}: {e}"))?;
    let wire = Silent::default();
    let said = match version {
        "4" => poll(SocksV4::new(Uri::default(), wire.clone()).call(uri)),
        _ => poll(SocksV5::new(Uri::default(), wire.clone()).send_optimistically(true).call(uri)),
    };
    Ok(format!("sent {} {said}", crate::case::hex(&wire.0.lock().unwrap())))
}
