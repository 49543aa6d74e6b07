//! The words of a text, with their places, and how they are shown in a message.
use super::Error;

/// The most characters of a word that a message shows.
const MOST_SHOWN: usize = 30;
/// The most characters of a name: it may stand millions of times in a text that is written.
pub(super) const LONGEST_NAME: usize = 100;
/// The most names of a list that a message shows.
const MOST_LISTED: usize = 8;

/// A word with its place: letters, digits, `_` and `'`, or `->`, or any other character by itself. At the end of the
/// text it is empty.
#[derive(Clone, Copy)]
pub(super) struct Word<'a> {
    pub text: &'a str,
    line: usize,
    column: usize,
}

impl Word<'_> {
    pub fn is_end(self) -> bool {
        self.text.is_empty()
    }

    pub fn is_name(self) -> bool {
        is_name(self.text)
    }

    pub fn is_variable(self) -> bool {
        is_variable(self.text)
    }

    /// The error that something else should stand here.
    pub fn error(self, expected: impl Into<String>) -> Error {
        let found = if self.is_end() { "the end of the file".into() } else { format!("`{}`", shown(self.text)) };
        Error::Unexpected { line: self.line, column: self.column, expected: expected.into(), found }
    }

    /// The error that a name should stand here, or what `or` says.
    pub fn no_name(self, or: &str) -> Error {
        self.error(match self.text {
            text if is_variable(text) => format!("a name that is not a variable{or}"),
            text if text.chars().nth(LONGEST_NAME).is_some() => {
                format!("a name of at most {LONGEST_NAME} characters{or}")
            }
            _ => format!("a name{or}"),
        })
    }
}

/// Whether a text is a name: a letter or `_`, then letters, digits, `_` or `'`, not too many, and no variable.
pub(super) fn is_name(text: &str) -> bool {
    text.starts_with(|first: char| first.is_alphabetic() || first == '_')
        && text.chars().all(is_part)
        && text.chars().nth(LONGEST_NAME).is_none()
        && !is_variable(text)
}

fn is_variable(text: &str) -> bool {
    let digits = text.strip_prefix('x').unwrap_or_default();
    !digits.is_empty() && digits.bytes().all(|byte| byte.is_ascii_digit())
}

/// Whether a character can stand in a name.
fn is_part(character: char) -> bool {
    character.is_alphanumeric() || character == '_' || character == '\''
}

/// A word as a message shows it: at most so many characters, and none that moves the cursor.
pub(super) fn shown(word: &str) -> String {
    let mut shown = String::new();
    for character in word.chars().take(MOST_SHOWN) {
        match character {
            '\'' | '"' | '\\' => shown.push(character),
            _ => shown.extend(character.escape_debug()),
        }
    }
    if word.chars().nth(MOST_SHOWN).is_some() {
        shown.push('…');
    }
    shown
}

/// A list of names as a message shows it.
pub(super) fn list<'a>(names: impl Iterator<Item = &'a str>) -> String {
    let mut listed: Vec<String> = names.take(MOST_LISTED + 1).map(shown).collect();
    if let Some(more) = listed.get_mut(MOST_LISTED) {
        *more = "…".into();
    }
    listed.join(", ")
}

/// The words of a text that are still to be read. A copy reads ahead.
#[derive(Clone)]
pub(super) struct Words<'a> {
    rest: &'a str,
    line: usize,
    column: usize,
}

impl<'a> Words<'a> {
    pub fn new(text: &'a [u8]) -> Result<Self, Error> {
        // some editors put a byte order mark before a text
        let text = text.strip_prefix("\u{feff}".as_bytes()).unwrap_or(text);
        let start = |rest| Words { rest, line: 1, column: 1 };
        std::str::from_utf8(text).map(start).map_err(|error| {
            let (before, behind) = text.split_at(error.valid_up_to());
            let mut words = start(std::str::from_utf8(before).unwrap_or_default());
            words.pass(before.len());
            let found = format!("byte {}", behind.first().copied().unwrap_or_default());
            Error::Unexpected { line: words.line, column: words.column, expected: "UTF-8".into(), found }
        })
    }

    /// The next word; at the end of the text an empty one, again and again.
    pub fn next(&mut self) -> Word<'a> {
        self.pass_blanks();
        let (line, column) = (self.line, self.column);
        Word { text: self.pass(word_length(self.rest)), line, column }
    }

    fn pass_blanks(&mut self) {
        loop {
            let is_blank = |character| matches!(character, ' ' | '\t' | '\n' | '\r');
            self.pass(self.rest.find(|character| !is_blank(character)).unwrap_or(self.rest.len()));
            if !self.rest.starts_with('#') {
                return;
            }
            self.pass(self.rest.find(['\n', '\r']).unwrap_or(self.rest.len()));
        }
    }

    /// Goes on by so many bytes, which are whole characters, and counts lines and columns.
    fn pass(&mut self, bytes: usize) -> &'a str {
        let (passed, rest) = self.rest.split_at(bytes);
        for character in passed.chars() {
            match character {
                '\n' => (self.line, self.column) = (self.line + 1, 1),
                _ => self.column += 1,
            }
        }
        self.rest = rest;
        passed
    }
}

/// The length of the word that a text begins with.
fn word_length(text: &str) -> usize {
    match text.chars().next() {
        None => 0,
        Some(first) if is_part(first) => text.find(|character| !is_part(character)).unwrap_or(text.len()),
        Some(_) if text.starts_with("->") => 2,
        Some(first) => first.len_utf8(),
    }
}
