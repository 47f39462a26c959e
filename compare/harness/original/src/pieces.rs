//! Streams that give and take a few bytes a call, are interrupted at each fourth, and break after some bytes. The port's side has the same.
use std::io::{self, ErrorKind, Read, Write};

pub struct Pieces<'s> {
    pub bytes: &'s [u8],
    most: usize,
    left: usize,
    calls: usize,
}

impl<'s> Pieces<'s> {
    pub fn new(bytes: &'s [u8], most: usize, left: usize) -> Pieces<'s> {
        Pieces {
            bytes,
            most,
            left,
            calls: 0,
        }
    }
}

impl Read for Pieces<'_> {
    fn read(&mut self, bytes: &mut [u8]) -> io::Result<usize> {
        self.calls += 1;
        if self.calls % 4 == 3 {
            return Err(ErrorKind::Interrupted.into());
        }
        if self.left == 0 && !bytes.is_empty() {
            return Err(ErrorKind::BrokenPipe.into());
        }
        let most = bytes.len().min(self.most).min(self.left);
        let count = self.bytes.read(&mut bytes[..most])?;
        self.left -= count;
        Ok(count)
    }
}

pub struct Sink<'s> {
    room: &'s mut [u8],
    at: usize,
    most: usize,
    left: usize,
    calls: usize,
}

impl<'s> Sink<'s> {
    pub fn new(room: &'s mut [u8], most: usize, left: usize) -> Sink<'s> {
        Sink {
            room,
            at: 0,
            most,
            left,
            calls: 0,
        }
    }
}

impl Write for Sink<'_> {
    fn write(&mut self, bytes: &[u8]) -> io::Result<usize> {
        self.calls += 1;
        if self.calls % 4 == 3 {
            return Err(ErrorKind::Interrupted.into());
        }
        if self.left == 0 && !bytes.is_empty() {
            return Err(ErrorKind::BrokenPipe.into());
        }
        let count = bytes.len().min(self.most).min(self.left);
        if let Some(room) = self.room.get_mut(self.at..self.at + count) {
            room.copy_from_slice(&bytes[..count]);
        }
        self.at += count;
        self.left -= count;
        Ok(count)
    }

    fn flush(&mut self) -> io::Result<()> {
        Ok(())
    }
}
