//! What the original takes from hyper's `rt`, and no more of it; and the original's own `rt/io.rs`.
use std::io::Result;
use std::pin::Pin;
use std::task::{Context, Poll};

mod io;
pub(crate) use io::{read, write_all};

pub trait Read {
    fn poll_read(self: Pin<&mut Self>, cx: &mut Context<'_>, buf: ReadBufCursor<'_>) -> Poll<Result<()>>;
}

pub trait Write {
    fn poll_write(self: Pin<&mut Self>, cx: &mut Context<'_>, buf: &[u8]) -> Poll<Result<usize>>;
}

impl<T: Read + Unpin + ?Sized> Read for &mut T {
    fn poll_read(mut self: Pin<&mut Self>, cx: &mut Context<'_>, buf: ReadBufCursor<'_>) -> Poll<Result<()>> {
        Pin::new(&mut **self).poll_read(cx, buf)
    }
}

impl<T: Write + Unpin + ?Sized> Write for &mut T {
    fn poll_write(mut self: Pin<&mut Self>, cx: &mut Context<'_>, buf: &[u8]) -> Poll<Result<usize>> {
        Pin::new(&mut **self).poll_write(cx, buf)
    }
}

pub struct ReadBuf<'a> {
    raw: &'a mut [u8],
    filled: usize,
}

impl<'a> ReadBuf<'a> {
    pub fn new(raw: &'a mut [u8]) -> Self {
        Self { raw, filled: 0 }
    }

    pub fn filled(&self) -> &[u8] {
        &self.raw[..self.filled]
    }

    pub fn unfilled(&mut self) -> ReadBufCursor<'_> {
        ReadBufCursor { room: &mut self.raw[self.filled..], filled: &mut self.filled }
    }
}

pub struct ReadBufCursor<'a> {
    room: &'a mut [u8],
    filled: &'a mut usize,
}

impl ReadBufCursor<'_> {
    // As many of the bytes as there is room for; answers how many.
    pub fn fill(self, bytes: &[u8]) -> usize {
        let n = bytes.len().min(self.room.len());
        self.room[..n].copy_from_slice(&bytes[..n]);
        *self.filled += n;
        n
    }
}
