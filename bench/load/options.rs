//! What is asked for on the command line.

use std::time::Duration;

#[derive(Clone, Copy, PartialEq)]
pub enum SystemName {
    Richd,
    Bare,
    Redis,
    Postgres,
}

#[derive(Clone, Copy, PartialEq)]
pub enum Typing {
    Letters,
    Rich,
}

#[derive(Clone)]
pub struct Options {
    pub address: String,
    pub system: SystemName,
    pub sessions: usize,
    pub observers: usize,
    /// Whether all sessions type into one document.
    pub one_document: bool,
    /// How many edits of a session are on their way at a time.
    pub ahead: usize,
    pub typing: Typing,
    /// How many edits each writer makes, where it isn't the time that ends them.
    pub edits: Option<usize>,
    pub measured: Duration,
    pub unmeasured: Duration,
}

impl Options {
    /// Reads pairs of words, `--name value`.
    pub fn read(words: &[String]) -> Result<Options, String> {
        let mut options = Options {
            address: String::new(),
            system: SystemName::Richd,
            sessions: 64,
            observers: 0,
            one_document: false,
            ahead: 1,
            typing: Typing::Letters,
            edits: None,
            measured: Duration::from_secs(3),
            unmeasured: Duration::from_secs(1),
        };
        for pair in words.chunks(2) {
            let [name, value] = pair else { return Err(format!("{} wants a value", pair[0])) };
            match (name.as_str(), value.as_str()) {
                ("--address", _) => options.address = value.clone(),
                ("--system", "richd") => options.system = SystemName::Richd,
                ("--system", "bare") => options.system = SystemName::Bare,
                ("--system", "redis") => options.system = SystemName::Redis,
                ("--system", "postgres") => options.system = SystemName::Postgres,
                ("--sessions", _) => options.sessions = number(name, value)?,
                ("--observers", _) => options.observers = number(name, value)?,
                ("--documents", "own") => options.one_document = false,
                ("--documents", "one") => options.one_document = true,
                ("--ahead", _) => options.ahead = number(name, value)?,
                ("--typing", "letters") => options.typing = Typing::Letters,
                ("--typing", "rich") => options.typing = Typing::Rich,
                ("--edits", _) => options.edits = Some(number(name, value)?),
                ("--seconds", _) => options.measured = Duration::from_secs_f64(number(name, value)?),
                _ => return Err(format!("{name} {value} isn't known")),
            }
        }
        if options.sessions == 0 || options.ahead == 0 {
            return Err("there is no session, or none sends".to_string());
        }
        if options.observers > 0 && options.system != SystemName::Richd {
            return Err("richd alone has observers".to_string());
        }
        if options.typing == Typing::Rich && options.one_document {
            return Err("rich text is typed into own documents".to_string());
        }
        Ok(options)
    }
}

fn number<N: std::str::FromStr>(name: &str, value: &str) -> Result<N, String> {
    value.parse().map_err(|_| format!("{name} {value} is no number"))
}
