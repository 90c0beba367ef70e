//! Redis: a document is a list, to which an edit's operations are appended by RPUSH. The list's length is the revision.

use crate::connection::Connection;
use crate::system::{System, Told};

pub struct Redis;

fn spell(out: &mut Vec<u8>, words: &[&str]) {
    out.extend_from_slice(format!("*{}\r\n", words.len()).as_bytes());
    for word in words {
        out.extend_from_slice(format!("${}\r\n{word}\r\n", word.len()).as_bytes());
    }
}

/// The whole number that a command is answered.
fn number(line: &str) -> Result<u64, String> {
    let digits = line.strip_prefix(':').map(str::trim_end);
    digits.and_then(|digits| digits.parse().ok()).ok_or_else(|| format!("it was answered {line}"))
}

fn ask(connection: &mut Connection, words: &[&str]) -> Result<u64, String> {
    let mut out = Vec::new();
    spell(&mut out, words);
    connection.send(&out)?;
    number(&connection.next_line()?)
}

impl System for Redis {
    fn begin(&self, _: &mut Connection, _: &str) -> Result<(), String> {
        Ok(())
    }

    fn create(&self, connection: &mut Connection, document: &str, text: &str) -> Result<(), String> {
        match ask(connection, &["RPUSH", document, text])? {
            1 => Ok(()),
            revision => Err(format!("{document} was there, and has {revision} entries now")),
        }
    }

    fn follow(&self, _: &mut Connection, _: &str, _: u64) -> Result<(), String> {
        Err("nobody follows a list".to_string())
    }

    fn spell(&self, out: &mut Vec<u8>, document: &str, _: u64, _: u64, operations: &str) {
        spell(out, &["RPUSH", document, operations]);
    }

    fn told(&self, connection: &mut Connection, _: &str, _: u64) -> Result<Option<Told>, String> {
        match connection.line() {
            Some(line) => Ok(Some(Told::Taken(number(&line)?))),
            None => Ok(None),
        }
    }

    fn read_back(&self, connection: &mut Connection, document: &str) -> Result<(u64, Option<String>), String> {
        Ok((ask(connection, &["LLEN", document])?, None))
    }
}
