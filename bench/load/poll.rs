//! Waits until one of many connections has something to read, by the C library's `poll`.

use std::net::TcpStream;
use std::os::unix::io::AsRawFd;
use std::time::Duration;

const INPUT: i16 = 1;

#[repr(C)]
struct Entry {
    descriptor: i32,
    asked: i16,
    found: i16,
}

extern "C" {
    fn poll(entries: *mut Entry, count: u64, milliseconds: i32) -> i32;
}

pub struct Poll(Vec<Entry>);

impl Poll {
    pub fn of<'a>(sockets: impl Iterator<Item = &'a TcpStream>) -> Self {
        Poll(sockets.map(|socket| Entry { descriptor: socket.as_raw_fd(), asked: INPUT, found: 0 }).collect())
    }

    /// The places of those that have something to read, or are closed; none where the time is over.
    pub fn wait(&mut self, longest: Duration) -> Vec<usize> {
        // The pointer and the count are those of the entries, which live until the call returns.
        unsafe { poll(self.0.as_mut_ptr(), self.0.len() as u64, longest.as_millis() as i32) };
        (0..self.0.len()).filter(|&place| self.0[place].found != 0).collect()
    }
}
