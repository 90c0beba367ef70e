//! PostgreSQL: an edit is a row of a table, in a transaction of its own that also raises its document's revision. It is a statement that
//! is prepared once, by the frontend/backend protocol 3.0. `bench/beside-peers` makes the tables.

use crate::connection::Connection;
use crate::system::{System, Told};

pub struct Postgres;

const USER: &str = "richd";
const DATABASE: &str = "postgres";
const EDIT: &str = "WITH made AS (UPDATE documents SET revision = revision + 1 WHERE name = $1 RETURNING revision) \
     INSERT INTO edits SELECT $1, revision, $2 FROM made RETURNING revision";
const CREATE: &str = "WITH made AS (INSERT INTO documents VALUES ($1, 1) RETURNING revision) \
     INSERT INTO edits SELECT $1, revision, $2 FROM made RETURNING revision";
const READ: &str = "SELECT revision FROM documents WHERE name = $1 AND revision = (SELECT count(*) FROM edits WHERE document = $1)";

/// Puts a message together: its letter, its length, and its content.
fn message(out: &mut Vec<u8>, letter: u8, content: &[u8]) {
    out.push(letter);
    out.extend_from_slice(&(content.len() as i32 + 4).to_be_bytes());
    out.extend_from_slice(content);
}

/// Prepares a statement whose name is one letter.
fn prepare(out: &mut Vec<u8>, name: char, statement: &str) {
    message(out, b'P', format!("{name}\0{statement}\0\0\0").as_bytes());
}

/// Runs a prepared statement with texts as its parameters.
fn run(out: &mut Vec<u8>, name: char, parameters: &[&str]) {
    let mut bind = format!("\0{name}\0\0\0").into_bytes();
    bind.extend_from_slice(&(parameters.len() as i16).to_be_bytes());
    for parameter in parameters {
        bind.extend_from_slice(&(parameter.len() as i32).to_be_bytes());
        bind.extend_from_slice(parameter.as_bytes());
    }
    bind.extend_from_slice(&0_i16.to_be_bytes());
    message(out, b'B', &bind);
    message(out, b'E', &[0, 0, 0, 0, 0]);
    message(out, b'S', &[]);
}

/// What is to come whole: the messages up to that which says that the server is ready, and the number in the only row of them.
fn answer(connection: &mut Connection) -> Result<Option<Option<u64>>, String> {
    let (mut at, mut number) = (0, None);
    loop {
        let rest = &connection.rest()[at..];
        if rest.len() < 5 {
            return Ok(None);
        }
        let length = i32::from_be_bytes([rest[1], rest[2], rest[3], rest[4]]) as usize + 1;
        if rest.len() < length {
            return Ok(None);
        }
        match rest[0] {
            b'E' => return Err(String::from_utf8_lossy(&rest[5..length]).replace('\0', " ")),
            b'D' => number = std::str::from_utf8(&rest[11..length]).ok().and_then(|digits| digits.parse().ok()),
            b'Z' => {
                connection.take(at + length);
                return Ok(Some(number));
            }
            _ => {}
        }
        at += length;
    }
}

fn ask(connection: &mut Connection, out: &[u8]) -> Result<Option<u64>, String> {
    connection.send(out)?;
    loop {
        if let Some(number) = answer(connection)? {
            return Ok(number);
        }
        connection.receive()?;
    }
}

impl System for Postgres {
    fn begin(&self, connection: &mut Connection, _: &str) -> Result<(), String> {
        let parameters = format!("user\0{USER}\0database\0{DATABASE}\0\0");
        let mut out = (parameters.len() as i32 + 8).to_be_bytes().to_vec();
        out.extend_from_slice(&196_608_i32.to_be_bytes()); // the protocol's number
        out.extend_from_slice(parameters.as_bytes());
        ask(connection, &out)?;
        let mut out = Vec::new();
        prepare(&mut out, 'c', CREATE);
        prepare(&mut out, 'e', EDIT);
        prepare(&mut out, 'r', READ);
        message(&mut out, b'S', &[]);
        ask(connection, &out).map(|_| ())
    }

    fn create(&self, connection: &mut Connection, document: &str, text: &str) -> Result<(), String> {
        let mut out = Vec::new();
        run(&mut out, 'c', &[document, text]);
        match ask(connection, &out)? {
            Some(1) => Ok(()),
            revision => Err(format!("{document} was made at {revision:?}")),
        }
    }

    fn follow(&self, _: &mut Connection, _: &str, _: u64) -> Result<(), String> {
        Err("nobody follows a table".to_string())
    }

    fn spell(&self, out: &mut Vec<u8>, document: &str, _: u64, _: u64, operations: &str) {
        run(out, 'e', &[document, operations]);
    }

    fn told(&self, connection: &mut Connection, document: &str, _: u64) -> Result<Option<Told>, String> {
        match answer(connection)? {
            Some(Some(revision)) => Ok(Some(Told::Taken(revision))),
            Some(None) => Err(format!("an edit of {document} made no revision")),
            None => Ok(None),
        }
    }

    fn read_back(&self, connection: &mut Connection, document: &str) -> Result<(u64, Option<String>), String> {
        let mut out = Vec::new();
        run(&mut out, 'r', &[document]);
        let revision = ask(connection, &out)?;
        revision.map(|revision| (revision, None)).ok_or_else(|| format!("the revisions of {document} aren't its edits"))
    }
}
