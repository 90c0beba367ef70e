//! Makes the load of many writers over TCP, and measures how it is answered.
//!
//!     rustc -O --edition 2021 -o load bench/load/load.rs
//!     load --address 127.0.0.1:7000 --sessions 64 --documents own --seconds 3
//!
//! | option | default | |
//! |---|---|---|
//! | `--system richd`, `bare`, `redis` or `postgres` | richd | what listens at the address |
//! | `--sessions N` | 64 | writers, each a source with a connection of its own |
//! | `--documents own` or `one` | own | a document for each session, or one for all |
//! | `--ahead N` | 1 | edits of a session on their way at a time: the next is sent when one is answered |
//! | `--typing letters` or `rich` | letters | a letter put in and taken out again; or a bold one, with attributes set and removed around it |
//! | `--observers N` | 0 | further sessions that follow the document of the first writer |
//! | `--seconds S` | 3 | how long it is measured, after a second that doesn't count |
//! | `--edits N` | | each writer makes so many edits, however long that takes; the rates that are printed mean nothing then |
//!
//! Documents have 8,192 letters at their creation. Each answer is checked as it comes: it is the next one due, and the revisions of a
//! session rise. An observer that falls behind what is held fetches the document, and follows it anew. At the end the revisions of a
//! document are 2, 3 and so on, each made by one edit; the document is read back at the last of them, and its text is what was typed. It
//! prints one JSON object, and its status is 0 only if all this was so.

mod connection;
mod options;
mod poll;
mod postgres;
mod redis;
mod richd;
mod system;
mod typing;

use connection::Connection;
use options::{Options, SystemName, Typing};
use poll::Poll;
use std::collections::VecDeque;
use std::time::{Duration, Instant};
use system::{System, Told};
use typing::{first_text, Typist, UNITS};

const PATIENCE: Duration = Duration::from_secs(10);

struct Session {
    connection: Connection,
    document: String,
    is_observer: bool,
    typist: Typist,
    number: u64,   // of the last command
    revision: u64, // the newest that it was told
    due: VecDeque<(u64, Instant)>, // edits on their way: number, and when it was sent
    revisions: Vec<u64>,           // those that its edits made
    delays: Vec<Duration>,         // of the edits that were answered while it was measured
    news: u64,                     // lines that came while it was measured
    falls: u64,                    // how often it fell behind, and began to follow anew
}

/// When it is measured.
struct Span {
    begin: Instant,
    end: Instant,
}

impl Span {
    fn has(&self, moment: Instant) -> bool {
        self.begin <= moment && moment < self.end
    }
}

impl Session {
    fn begin(options: &Options, system: &dyn System, place: usize) -> Result<Session, String> {
        let is_observer = place >= options.sessions;
        let owner = if options.one_document || is_observer { 0 } else { place };
        let own_place = options.one_document.then(|| (2 * place + 1) * UNITS / (2 * options.sessions));
        let mut session = Session {
            connection: Connection::open(&options.address)?,
            document: format!("d{owner}"),
            is_observer,
            typist: Typist::new(options.typing, place, own_place),
            number: 0,
            revision: 1,
            due: VecDeque::new(),
            revisions: Vec::new(),
            delays: Vec::new(),
            news: 0,
            falls: 0,
        };
        system.begin(&mut session.connection, &format!("s{place}"))?;
        if is_observer {
            system.follow(&mut session.connection, &session.document, 1)?;
        } else if owner == place {
            system.create(&mut session.connection, &session.document, &first_text())?;
            session.number = 1;
        }
        Ok(session)
    }

    /// Sends edits until enough are on their way, or all are sent that it is to make.
    fn send(&mut self, system: &dyn System, options: &Options) -> Result<(), String> {
        let mut out = Vec::new();
        let now = Instant::now();
        let left = options.edits.map_or(usize::MAX, |edits| edits.saturating_sub(self.revisions.len()));
        while self.due.len() < options.ahead.min(left) {
            self.number += 1;
            system.spell(&mut out, &self.document, self.number, self.revision, &self.typist.next());
            self.due.push_back((self.number, now));
        }
        self.connection.send(&out)
    }

    /// Takes in what has come.
    fn receive(&mut self, system: &dyn System, span: &Span) -> Result<(), String> {
        self.connection.receive()?;
        let now = Instant::now();
        loop {
            let number = self.due.front().map_or(0, |&(number, _)| number);
            match system.told(&mut self.connection, &self.document, number)? {
                None => return Ok(()),
                Some(Told::News(revision)) => {
                    if !self.is_observer || revision != self.revision + 1 {
                        return Err(format!("news of revision {revision} after {}", self.revision));
                    }
                    self.revision = revision;
                    self.news += span.has(now) as u64;
                }
                Some(Told::FellBehind) => {
                    (self.revision, _) = system.read_back(&mut self.connection, &self.document)?;
                    system.follow(&mut self.connection, &self.document, self.revision)?;
                    self.falls += 1;
                }
                Some(Told::Taken(revision)) => {
                    let (_, sent) = self.due.pop_front().ok_or("an answer that nobody waits for")?;
                    if revision <= self.revision {
                        return Err(format!("revision {revision} after {}", self.revision));
                    }
                    self.revision = revision;
                    self.revisions.push(revision);
                    if span.has(now) {
                        self.delays.push(now - sent);
                    }
                }
            }
        }
    }
}

/// Has all sessions type until the end of the time, and until all is answered.
fn run(options: &Options, system: &dyn System, sessions: &mut [Session]) -> Result<(), String> {
    let mut poll = Poll::of(sessions.iter().map(|session| &session.connection.socket));
    let begin = Instant::now() + options.unmeasured;
    let span = Span { begin, end: begin + options.measured };
    for session in sessions.iter_mut().filter(|session| !session.is_observer) {
        session.send(system, options)?;
    }
    let mut last = Instant::now();
    while sessions.iter().any(|session| !session.due.is_empty()) {
        for place in poll.wait(Duration::from_millis(200)) {
            let session = &mut sessions[place];
            session.receive(system, &span).map_err(|fault| format!("session {place}: {fault}"))?;
            last = Instant::now();
            if !session.is_observer && (options.edits.is_some() || last < span.end) {
                session.send(system, options)?;
            }
        }
        if last.elapsed() > PATIENCE {
            return Err("no answer came for ten seconds".to_string());
        }
    }
    Ok(())
}

/// Checks what the edits of one document made of it. All of its writers are given.
fn check(options: &Options, system: &dyn System, writers: &mut [&mut Session]) -> Result<(), String> {
    let mut revisions: Vec<u64> = writers.iter().flat_map(|writer| writer.revisions.iter().copied()).collect();
    revisions.sort_unstable();
    let last = revisions.len() as u64 + 1;
    if !revisions.iter().copied().eq(2..=last) {
        return Err("its edits made no row of revisions without a gap".to_string());
    }
    let document = writers[0].document.clone();
    let (revision, text) = system.read_back(&mut writers[0].connection, &document)?;
    if revision != last {
        return Err(format!("it is at revision {revision}, and {last} were made"));
    }
    if options.system != SystemName::Richd || options.typing != Typing::Letters || options.ahead > 1 {
        return Ok(()); // there is no text, or it can't be known here
    }
    let text = text.ok_or("it isn't one text")?;
    let units = UNITS + writers.iter().map(|writer| writer.typist.more()).sum::<usize>();
    if text.len() != units || (writers.len() == 1 && text != writers[0].typist.text()) {
        return Err("its text isn't what was typed".to_string());
    }
    Ok(())
}

/// The value below which so many of a hundred lie, in milliseconds.
fn percentile(sorted: &[Duration], hundredth: f64) -> f64 {
    let place = (sorted.len().saturating_sub(1) as f64 * hundredth / 100.0).round() as usize;
    sorted.get(place).map_or(0.0, |delay| delay.as_secs_f64() * 1e3)
}

fn measure(options: &Options) -> Result<(), String> {
    let system = system::named(options.system);
    let system = system.as_ref();
    let mut sessions = Vec::new();
    for place in 0..options.sessions + options.observers {
        sessions.push(Session::begin(options, system, place).map_err(|fault| format!("session {place}: {fault}"))?);
    }
    run(options, system, &mut sessions)?;

    let mut writers: Vec<&mut Session> = sessions.iter_mut().filter(|session| !session.is_observer).collect();
    let size = if options.one_document { writers.len() } else { 1 };
    for group in writers.chunks_mut(size) {
        let document = group[0].document.clone();
        check(options, system, group).map_err(|fault| format!("document {document}: {fault}"))?;
    }

    let seconds = options.measured.as_secs_f64();
    let mut delays: Vec<Duration> = sessions.iter().flat_map(|session| session.delays.iter().copied()).collect();
    delays.sort_unstable();
    let news: u64 = sessions.iter().map(|session| session.news).sum();
    let falls: u64 = sessions.iter().map(|session| session.falls).sum();
    println!(
        "{{\"edits_per_second\":{:.0},\"p50_ms\":{:.3},\"p99_ms\":{:.3},\"news_per_second\":{:.0},\"falls\":{falls}}}",
        delays.len() as f64 / seconds,
        percentile(&delays, 50.0),
        percentile(&delays, 99.0),
        news as f64 / seconds,
    );
    Ok(())
}

fn main() {
    let words: Vec<String> = std::env::args().skip(1).collect();
    if let Err(fault) = Options::read(&words).and_then(|options| measure(&options)) {
        eprintln!("load: {fault}");
        std::process::exit(1);
    }
}
