//! richd, and the bare server, which speaks the same lines: docs/PROTOCOL.md.

use crate::connection::Connection;
use crate::system::{System, Told};

pub struct Richd {
    /// The bare server keeps no document.
    pub keeps_text: bool,
}

fn ask(connection: &mut Connection, message: &str) -> Result<String, String> {
    connection.send(format!("{message}\n").as_bytes())?;
    connection.next_line()
}

fn expect(connection: &mut Connection, message: &str, wanted: &str) -> Result<(), String> {
    let reply = ask(connection, message)?;
    if reply == wanted {
        Ok(())
    } else {
        Err(format!("{reply} for {wanted}"))
    }
}

/// The number between two texts that make up the line.
fn between(line: &str, before: &str, after: &str) -> Option<u64> {
    line.strip_prefix(before)?.strip_suffix(after)?.parse().ok()
}

impl System for Richd {
    fn begin(&self, connection: &mut Connection, source: &str) -> Result<(), String> {
        expect(connection, &format!("{{\"do\":\"hello\",\"source\":\"{source}\"}}"), "{\"ok\":\"hello\"}")
    }

    fn create(&self, connection: &mut Connection, document: &str, text: &str) -> Result<(), String> {
        let message = format!("{{\"do\":\"create\",\"doc\":\"{document}\",\"n\":1,\"ops\":[{{\"insert\":\"{text}\"}}]}}");
        expect(connection, &message, &format!("{{\"doc\":\"{document}\",\"n\":1,\"ok\":\"taken\",\"rev\":1}}"))
    }

    fn follow(&self, connection: &mut Connection, document: &str, revision: u64) -> Result<(), String> {
        let message = format!("{{\"do\":\"subscribe\",\"doc\":\"{document}\",\"rev\":{revision}}}");
        expect(connection, &message, &format!("{{\"doc\":\"{document}\",\"ok\":\"subscribed\",\"rev\":{revision}}}"))
    }

    fn spell(&self, out: &mut Vec<u8>, document: &str, number: u64, base: u64, operations: &str) {
        out.extend_from_slice(
            format!("{{\"base\":{base},\"do\":\"edit\",\"doc\":\"{document}\",\"n\":{number},\"ops\":{operations}}}\n").as_bytes(),
        );
    }

    fn told(&self, connection: &mut Connection, document: &str, number: u64) -> Result<Option<Told>, String> {
        let Some(line) = connection.line() else { return Ok(None) };
        let taken = format!("{{\"doc\":\"{document}\",\"n\":{number},\"ok\":\"taken\",\"rev\":");
        if let Some(revision) = between(&line, &taken, "}") {
            return Ok(Some(Told::Taken(revision)));
        }
        if line == format!("{{\"doc\":\"{document}\",\"ended\":13}}") {
            return Ok(Some(Told::FellBehind));
        }
        let news = line.strip_prefix(&format!("{{\"doc\":\"{document}\",\"news\":")).and_then(|rest| rest.split(',').next());
        match news.and_then(|digits| digits.parse().ok()) {
            Some(revision) => Ok(Some(Told::News(revision))),
            None => Err(format!("edit {number} of {document} was answered {line}")),
        }
    }

    fn read_back(&self, connection: &mut Connection, document: &str) -> Result<(u64, Option<String>), String> {
        let reply = ask(connection, &format!("{{\"do\":\"fetch\",\"doc\":\"{document}\"}}"))?;
        let revision = reply.rsplit("\"rev\":").next().and_then(|rest| rest.trim_end_matches('}').parse().ok());
        let revision = revision.ok_or_else(|| format!("a fetch of {document} was answered {reply}"))?;
        if !self.keeps_text {
            return Ok((revision, None));
        }
        // Plain text is one operation; of rich text the text isn't looked at.
        let before = format!("{{\"doc\":\"{document}\",\"ok\":\"doc\",\"ops\":[{{\"insert\":\"");
        let text = reply.strip_prefix(&before).and_then(|rest| rest.strip_suffix(&format!("\"}}],\"rev\":{revision}}}")));
        Ok((revision, text.map(str::to_string)))
    }
}
