//! What the systems that are measured have in common: sessions make documents, send edits, and are told the revision that each made.

use crate::connection::Connection;
use crate::options::SystemName;
use crate::{postgres::Postgres, redis::Redis, richd::Richd};

/// What a server says of itself.
pub enum Told {
    /// An edit of this session was taken, and made this revision.
    Taken(u64),
    /// Somebody's edit made this revision.
    News(u64),
    /// The session is told no more of the document, since the server holds no longer what it would be told next.
    FellBehind,
}

pub trait System {
    /// Begins a session on a new connection.
    fn begin(&self, connection: &mut Connection, source: &str) -> Result<(), String>;

    /// Makes a document with a text, at revision 1.
    fn create(&self, connection: &mut Connection, document: &str, text: &str) -> Result<(), String>;

    /// Has the session told each later revision of a document.
    fn follow(&self, connection: &mut Connection, document: &str, revision: u64) -> Result<(), String>;

    /// Spells an edit, the session's command of this number, made on this revision.
    fn spell(&self, out: &mut Vec<u8>, document: &str, number: u64, base: u64, operations: &str);

    /// Takes what the server says next, where it has come whole. `number` is that of the edit whose answer is due.
    fn told(&self, connection: &mut Connection, document: &str, number: u64) -> Result<Option<Told>, String>;

    /// The newest revision of a document, and its text where the system keeps one.
    fn read_back(&self, connection: &mut Connection, document: &str) -> Result<(u64, Option<String>), String>;
}

pub fn named(name: SystemName) -> Box<dyn System> {
    match name {
        SystemName::Richd => Box::new(Richd { keeps_text: true }),
        SystemName::Bare => Box::new(Richd { keeps_text: false }),
        SystemName::Redis => Box::new(Redis),
        SystemName::Postgres => Box::new(Postgres),
    }
}
