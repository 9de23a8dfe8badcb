//! Questions and answers taken apart, to be shown and to be compared: a part is a text, a slice of
//! numbers or a value. Where two answers differ, the first word that does is told by its place, with a
//! little of what stands around it.

use crate::count::Fault;

pub struct Part {
    name: String,
    kind: Kind,
    /// The text itself; of a slice, each number with a blank behind it.
    text: Vec<u8>,
}

#[derive(Clone, Copy, PartialEq)]
enum Kind {
    Text,
    Slice,
    Value,
}

/// How many bytes are shown before a difference, and from there on: of a text, and of numbers.
const BEFORE: usize = 24;
const TEXT_ON: usize = 60;
const NUMBERS_ON: usize = 24;
/// How many numbers of a slice stand in a line.
const TO_A_LINE: usize = 16;

impl Part {
    /// The text may go without a name.
    pub fn text(name: &str, text: &[u8]) -> Part {
        Part { name: name.to_string(), kind: Kind::Text, text: text.to_vec() }
    }

    pub fn slice<T: ToString>(name: &str, numbers: &[T]) -> Part {
        let text: String = numbers.iter().map(|number| number.to_string() + " ").collect();
        Part { name: name.to_string(), kind: Kind::Slice, text: text.into_bytes() }
    }

    pub fn value(name: &str, value: impl ToString) -> Part {
        Part { name: name.to_string(), kind: Kind::Value, text: value.to_string().into_bytes() }
    }

    // ---- all of it

    /// In a few words: a value, or how long a slice is.
    pub fn brief(&self) -> Option<String> {
        match self.kind {
            Kind::Text => None,
            Kind::Slice => Some(format!("{} {}", self.words().count(), self.name)),
            Kind::Value => Some(format!("{} {}", self.name, self.shown(&self.text))),
        }
    }

    /// A text line by line, and a slice some numbers in each line.
    pub fn lines(&self) -> Vec<String> {
        let words: Vec<&[u8]> = self.words().collect();
        let line = |(at, numbers): (usize, &[&[u8]])| {
            format!("{}[{}] {}", self.name, at * TO_A_LINE, self.shown(&numbers.concat()))
        };
        match self.kind {
            Kind::Text => {
                let lines = self.text.split_inclusive(|&byte| byte == b'\n').enumerate();
                lines
                    .map(|(at, line)| format!("{} {}", self.line_name(at), self.shown(line)))
                    .collect()
            }
            Kind::Slice if words.is_empty() => vec![format!("{} is empty", self.name)],
            Kind::Slice => words.chunks(TO_A_LINE).enumerate().map(line).collect(),
            Kind::Value => vec![format!("{} {}", self.name, self.shown(&self.text))],
        }
    }

    /// The words, each with the byte that ends it. A value is one word.
    fn words(&self) -> impl Iterator<Item = &[u8]> {
        self.text.split_inclusive(|&byte| self.ends_word(byte))
    }

    fn ends_word(&self, byte: u8) -> bool {
        self.kind != Kind::Value && [b' ', b'\n'].contains(&byte)
    }

    fn line_name(&self, at: usize) -> String {
        let of = if self.name.is_empty() { "" } else { ", " };
        format!("{}{of}line {}", self.name, at + 1)
    }

    // ---- the first difference

    /// In words where another one, which is not the same, differs first.
    fn difference(&self, came: &Part) -> String {
        let both = self.text.iter().zip(&came.text);
        let same = both.take_while(|(one, other)| one == other).count();
        let word = self.after_last(same, |byte| self.ends_word(byte));
        // a long word is shown from near the difference on
        let from = word.max(same.saturating_sub(BEFORE));
        let (place, before) = (self.place(word), self.before(from));
        format!("{place}{before}: expected {}, came {}", self.from(from), came.from(from))
    }

    /// The place behind the last such byte before a place.
    fn after_last(&self, place: usize, is_such: impl Fn(u8) -> bool) -> usize {
        self.text[..place].iter().rposition(|&byte| is_such(byte)).map_or(0, |last| last + 1)
    }

    fn begin_of_line(&self, place: usize) -> usize {
        self.after_last(place, |byte| byte == b'\n')
    }

    /// What a word is called that begins here.
    fn place(&self, word: usize) -> String {
        let line = self.begin_of_line(word);
        let words = |bytes: &[u8]| bytes.iter().filter(|&&byte| self.ends_word(byte)).count();
        match self.kind {
            Kind::Text => {
                let lines = self.text[..line].iter().filter(|&&byte| byte == b'\n').count();
                format!("{}, word {}", self.line_name(lines), words(&self.text[line..word]) + 1)
            }
            Kind::Slice => format!("{}[{}]", self.name, words(&self.text[..word])),
            Kind::Value => self.name.clone(),
        }
    }

    /// A little of what stands before a place, in the same line.
    fn before(&self, place: usize) -> String {
        let line = &self.text[self.begin_of_line(place)..place];
        let mut cut = &line[line.len().saturating_sub(BEFORE)..];
        if cut.len() < line.len() {
            // whole words, where there are any
            let word = cut.iter().position(|&byte| self.ends_word(byte)).map_or(0, |end| end + 1);
            cut = if word < cut.len() { &cut[word..] } else { cut };
        }
        let more = if cut.len() < line.len() { ".." } else { "" };
        if line.is_empty() {
            String::new()
        } else {
            format!(" behind {more}{}", self.shown(cut))
        }
    }

    /// A little of what stands from a place on, in the same line.
    fn from(&self, place: usize) -> String {
        let rest = &self.text[place..];
        let Some(line) = rest.split_inclusive(|&byte| byte == b'\n').next() else {
            return "nothing more".to_string();
        };
        let most = if self.kind == Kind::Text { TEXT_ON } else { NUMBERS_ON };
        let mut cut = line;
        if line.len() > most {
            let word = line[..most].iter().rposition(|&byte| self.ends_word(byte));
            cut = &line[..word.map_or(most, |end| end + 1)];
        }
        let more = if cut.len() < rest.len() { ".." } else { "" };
        format!("{}{more}", self.shown(cut))
    }

    fn shown(&self, bytes: &[u8]) -> String {
        let shown = bytes.escape_ascii().to_string();
        match self.kind {
            Kind::Text => format!("\"{shown}\""),
            Kind::Slice | Kind::Value => shown.trim_end().to_string(),
        }
    }
}

/// In words where the answer that came differs first from the one that is expected, if it does. Parts
/// lose nothing of an answer, so answers that are not the same differ in one.
pub fn difference_of_parts(expected: &[Part], came: &[Part]) -> Fault {
    let mut both = expected.iter().zip(came);
    if let Some((expected, came)) = both.find(|(expected, came)| expected.text != came.text) {
        return Some(expected.difference(came));
    }
    let (due, parts) = (expected.len(), came.len());
    (due != parts).then(|| format!("{parts} parts came, expected {due}"))
}

/// The same of two texts.
pub fn difference(expected: &[u8], came: &[u8]) -> Fault {
    difference_of_parts(&[Part::text("", expected)], &[Part::text("", came)])
}
