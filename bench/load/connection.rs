//! A connection, with what came and wasn't taken yet.

use std::io::{Read, Write};
use std::net::TcpStream;
use std::time::Duration;

const PATIENCE: Duration = Duration::from_secs(10);

pub struct Connection {
    pub socket: TcpStream,
    incoming: Vec<u8>,
    taken: usize, // bytes at the beginning of `incoming` that were taken
    piece: Vec<u8>,
}

impl Connection {
    pub fn open(address: &str) -> Result<Self, String> {
        let socket = TcpStream::connect(address).map_err(|error| format!("{address}: {error}"))?;
        socket.set_nodelay(true).map_err(|error| error.to_string())?;
        socket.set_read_timeout(Some(PATIENCE)).map_err(|error| error.to_string())?;
        Ok(Connection { socket, incoming: Vec::new(), taken: 0, piece: vec![0; 65_536] })
    }

    pub fn send(&mut self, bytes: &[u8]) -> Result<(), String> {
        self.socket.write_all(bytes).map_err(|error| error.to_string())
    }

    /// Takes in what comes next.
    pub fn receive(&mut self) -> Result<(), String> {
        let count = self.socket.read(&mut self.piece).map_err(|error| error.to_string())?;
        if count == 0 {
            return Err("the server closed the connection".to_string());
        }
        self.incoming.drain(..self.taken);
        self.taken = 0;
        self.incoming.extend_from_slice(&self.piece[..count]);
        Ok(())
    }

    /// What came and wasn't taken.
    pub fn rest(&self) -> &[u8] {
        &self.incoming[self.taken..]
    }

    /// Takes so many bytes of the rest.
    pub fn take(&mut self, count: usize) {
        self.taken += count;
    }

    /// The next line without its end, where it has come whole.
    pub fn line(&mut self) -> Option<String> {
        let end = self.rest().iter().position(|&byte| byte == b'\n')?;
        let line = String::from_utf8_lossy(&self.rest()[..end]).into_owned();
        self.take(end + 1);
        Some(line)
    }

    /// Waits for the next line.
    pub fn next_line(&mut self) -> Result<String, String> {
        loop {
            if let Some(line) = self.line() {
                return Ok(line);
            }
            self.receive()?;
        }
    }
}
