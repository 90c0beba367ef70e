//! What a session types.

use crate::options::Typing;

/// The units of a document at its creation.
pub const UNITS: usize = 8_192;

/// A document at its creation: blanks, with a dot at the end of each eighty.
pub fn first_text() -> String {
    (0..UNITS).map(|place| if place % 80 == 79 { '.' } else { ' ' }).collect()
}

/// Puts something in at some place, and takes it out again.
pub struct Typist {
    typing: Typing,
    letter: char,
    own_place: Option<usize>, // where others type into the same document
    place: usize,
    step: usize,
    random: u64,
}

impl Typist {
    pub fn new(typing: Typing, session: usize, own_place: Option<usize>) -> Self {
        let letter = (b'A' + (session % 26) as u8) as char;
        let random = 0x9e37_79b9_7f4a_7c15_u64.wrapping_mul(session as u64 + 1);
        Typist { typing, letter, own_place, place: 0, step: 0, random }
    }

    /// The operations of the next edit.
    pub fn next(&mut self) -> String {
        let step = self.step;
        self.step += 1;
        match (self.typing, step % 2, step % 4) {
            (Typing::Letters, 0, _) => {
                self.choose();
                self.at(0, &format!("{{\"insert\":\"{}\"}}", self.letter))
            }
            (Typing::Letters, _, _) => self.at(0, "{\"delete\":1}"),
            (Typing::Rich, _, 0) => {
                self.choose();
                self.at(0, &format!("{{\"attributes\":{{\"bold\":true}},\"insert\":\"{}\"}}", self.letter))
            }
            (Typing::Rich, _, 1) => self.at(1, "{\"attributes\":{\"bold\":null,\"italic\":true},\"retain\":4}"),
            (Typing::Rich, _, 2) => self.at(1, "{\"attributes\":{\"italic\":null},\"retain\":4}"),
            (Typing::Rich, _, _) => self.at(1, "{\"delete\":1}"),
        }
    }

    /// The text of the document, where nobody else typed into it and each edit was taken.
    pub fn text(&self) -> String {
        let mut text = first_text();
        if self.step % 2 == 1 {
            text.insert(self.place, self.letter);
        }
        text
    }

    /// How many units the document has more than at its creation, by this session's edits.
    pub fn more(&self) -> usize {
        self.step % 2
    }

    fn choose(&mut self) {
        self.random = self.random.wrapping_mul(6_364_136_223_846_793_005).wrapping_add(1_442_695_040_888_963_407);
        let drawn = (self.random >> 33) as usize % (UNITS - 8);
        self.place = self.own_place.unwrap_or(drawn);
    }

    fn at(&self, further: usize, operation: &str) -> String {
        match self.place + further {
            0 => format!("[{operation}]"),
            place => format!("[{{\"retain\":{place}}},{operation}]"),
        }
    }
}
