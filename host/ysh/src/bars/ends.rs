//! Which line of a stream a byte stands in. The csv crate counts lines too, but not a blank one before a line, nor the second byte of a
//! line's end as Windows writes it.

use std::collections::VecDeque;
use std::io::{self, Read};

/// A stream that remembers where the lines ended that it gave and that nobody asked about yet.
pub struct Ends<R> {
    inner: R,
    /// The bytes given so far.
    given: u64,
    /// The lines that ended so far.
    ended: u64,
    /// The returns (CR) right before the next byte.
    returns: u64,
    ends: VecDeque<End>,
}

/// The end of a line: where its newline stands, and how many returns before that.
#[derive(Clone, Copy)]
struct End {
    at: u64,
    returns: u64,
    line: u64,
}

impl<R: Read> Ends<R> {
    pub fn new(inner: R) -> Ends<R> {
        Ends { inner, given: 0, ended: 0, returns: 0, ends: VecDeque::new() }
    }

    /// The line, counted from 1 as an editor counts, of what follows a byte, ends of lines passed over. Bytes are asked about in
    /// rising order.
    pub fn after(&mut self, mut byte: u64) -> u64 {
        while let Some(&end) = self.ends.front() {
            if byte < end.at - end.returns {
                return end.line;
            }
            byte = byte.max(end.at + 1);
            self.ends.pop_front();
        }
        self.ended + 1
    }

    fn seen(&mut self, bytes: &[u8]) {
        let mut begin = 0;
        for newline in memchr::memchr_iter(b'\n', bytes) {
            let returns = trailing(&bytes[begin..newline]);
            let returns = if returns == (newline - begin) as u64 { returns + self.returns } else { returns };
            self.ended += 1;
            self.ends.push_back(End { at: self.given + newline as u64, returns, line: self.ended });
            (begin, self.returns) = (newline + 1, 0);
        }
        let rest = &bytes[begin..];
        let returns = trailing(rest);
        self.returns = if returns == rest.len() as u64 { returns + self.returns } else { returns };
        self.given += bytes.len() as u64;
    }
}

fn trailing(bytes: &[u8]) -> u64 {
    bytes.iter().rev().take_while(|byte| **byte == b'\r').count() as u64
}

impl<R: Read> Read for Ends<R> {
    fn read(&mut self, room: &mut [u8]) -> io::Result<usize> {
        let read = self.inner.read(room)?;
        self.seen(&room[..read]);
        Ok(read)
    }
}

#[cfg(test)]
mod tests {
    use super::*;

    /// Any cut of a text into reads counts the same.
    #[test]
    fn lines_are_counted_as_an_editor_counts_them() {
        let text = b"a\r\n\r\nb\n\nc\n";
        for cut in 0..text.len() {
            let mut ends = Ends::new(text[..cut].chain(&text[cut..]));
            let mut room = [0; 16];
            while ends.read(&mut room).unwrap() > 0 {}
            assert_eq!([ends.after(0), ends.after(2), ends.after(5), ends.after(7), ends.after(10)], [1, 3, 3, 5, 6]);
        }
        assert_eq!(Ends::new(&b""[..]).after(0), 1);
    }
}
