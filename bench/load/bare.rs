//! A bare server: what the lines of richd, the threads and the disk cost by themselves.
//!
//!     rustc -O --edition 2021 -o bare bench/load/bare.rs
//!     bare FILE 127.0.0.1:0
//!
//! It has the threads of `richd serve --listen`: one for each session, and one that writes. A session puts each command on a queue, and
//! answers it once that is written. The writer takes all that is queued as one batch, writes and syncs it, opens its gate, and syncs
//! again. It keeps no document, transforms nothing, and checks nothing: of a line it reads `do`, `doc` and `n`, and of a document it
//! knows how many commands came.

use std::collections::HashMap;
use std::fs::{File, OpenOptions};
use std::io::{self, Read, Write};
use std::net::{TcpListener, TcpStream};
use std::os::unix::fs::FileExt;
use std::sync::{Arc, Condvar, Mutex};
use std::thread;

const FILE: u64 = 2 << 20; // bytes, written round and round
const RECORD: usize = 60; // bytes of a command in a batch at most
const OPEN: u8 = 0xa5; // an open gate

#[derive(Default)]
struct Board {
    revisions: HashMap<String, u64>,
    batch: Vec<u8>,
    taken: u64,   // commands, of all sessions
    settled: u64, // of them those on the disk
}

#[derive(Default)]
struct Hub {
    board: Mutex<Board>,
    work: Condvar,    // there is a batch
    settled: Condvar, // a batch is on the disk
}

impl Hub {
    /// Queues a command, waits until it is on the disk, and returns the revision that it made.
    fn commit(&self, document: &str, line: &str) -> u64 {
        let mut board = self.board.lock().unwrap();
        let revision = board.revisions.entry(document.to_string()).or_default();
        *revision += 1;
        let revision = *revision;
        if board.batch.is_empty() {
            self.work.notify_one();
        }
        board.batch.extend_from_slice(&line.as_bytes()[..line.len().min(RECORD)]);
        board.taken += 1;
        let own = board.taken;
        while board.settled < own {
            board = self.settled.wait(board).unwrap();
        }
        revision
    }

    fn revision(&self, document: &str) -> u64 {
        let board = self.board.lock().unwrap();
        board.revisions.get(document).copied().unwrap_or(0)
    }

    /// Writes batch after batch, each with two syncs.
    fn write(&self, file: &File) -> io::Result<()> {
        let mut place = 0;
        loop {
            let (mut batch, taken) = {
                let mut board = self.board.lock().unwrap();
                while board.batch.is_empty() {
                    board = self.work.wait(board).unwrap();
                }
                (std::mem::take(&mut board.batch), board.taken)
            };
            batch.push(0); // the gate of the next batch, closed
            if place + batch.len() as u64 + 1 > FILE {
                place = 0;
            }
            file.write_all_at(&batch, place + 1)?;
            file.sync_data()?;
            file.write_all_at(&[OPEN], place)?;
            file.sync_data()?;
            place += batch.len() as u64;
            self.board.lock().unwrap().settled = taken;
            self.settled.notify_all();
        }
    }

    /// Answers a line.
    fn answer(&self, line: &str) -> String {
        let document = text(line, "\"doc\":\"");
        match text(line, "\"do\":\"") {
            "hello" => "{\"ok\":\"hello\"}\n".to_string(),
            "fetch" => {
                let revision = self.revision(document);
                format!("{{\"doc\":\"{document}\",\"ok\":\"doc\",\"ops\":[],\"rev\":{revision}}}\n")
            }
            _ => {
                let number = member(line, "\"n\":", |letter| letter.is_ascii_digit());
                let revision = self.commit(document, line);
                format!("{{\"doc\":\"{document}\",\"n\":{number},\"ok\":\"taken\",\"rev\":{revision}}}\n")
            }
        }
    }

    fn serve(&self, mut stream: TcpStream) -> io::Result<()> {
        stream.set_nodelay(true)?;
        let mut piece = [0; 16_384];
        let mut incoming = Vec::new();
        loop {
            let count = stream.read(&mut piece)?;
            if count == 0 {
                return Ok(());
            }
            incoming.extend_from_slice(&piece[..count]);
            let mut begin = 0;
            while let Some(length) = incoming[begin..].iter().position(|&byte| byte == b'\n') {
                let line = std::str::from_utf8(&incoming[begin..begin + length]).unwrap_or("");
                begin += length + 1;
                let answer = self.answer(line);
                stream.write_all(answer.as_bytes())?;
            }
            incoming.drain(..begin);
        }
    }
}

/// What stands behind a name with its colon, up to the next letter that doesn't belong to it.
fn member<'a>(line: &'a str, name: &str, belongs: impl Fn(char) -> bool) -> &'a str {
    let after = line.find(name).map_or("", |place| &line[place + name.len()..]);
    &after[..after.find(|letter| !belongs(letter)).unwrap_or(after.len())]
}

fn text<'a>(line: &'a str, name: &str) -> &'a str {
    member(line, name, |letter| letter != '"')
}

fn main() -> io::Result<()> {
    let words: Vec<String> = std::env::args().collect();
    let [_, path, address] = words.as_slice() else {
        eprintln!("usage: bare FILE ADDRESS");
        std::process::exit(2);
    };
    let file = OpenOptions::new().write(true).create(true).truncate(true).open(path)?;
    file.write_all_at(&vec![0; FILE as usize], 0)?;
    file.sync_all()?;
    let hub = Arc::new(Hub::default());
    let writer = hub.clone();
    thread::spawn(move || writer.write(&file).unwrap());
    let listener = TcpListener::bind(address)?;
    println!("listening {}", listener.local_addr()?);
    for stream in listener.incoming() {
        let (stream, hub) = (stream?, hub.clone());
        thread::spawn(move || hub.serve(stream));
    }
    Ok(())
}
