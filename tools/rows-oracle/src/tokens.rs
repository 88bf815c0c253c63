//! What a row is made of: steps between bars, and their words, texts and commas.
use crate::fault::Fault;
use std::mem;

/// A part of a step.
#[derive(Debug)]
pub enum Token {
    Word(String),
    /// What stood between quotes.
    Text(String),
    Comma,
}

// Where the reading of a row is.
#[derive(Debug, Clone, Copy, PartialEq, Eq)]
enum Place {
    // In a word or between two.
    Plain,
    Text,
    // After a backslash.
    Escape,
    // In the number of a character, of which so much is read.
    Number(u32),
}

struct Tokens {
    steps: Vec<Vec<Token>>,
    step: Vec<Token>,
    text: String,
    place: Place,
}

impl Tokens {
    // The text that was read, which then is empty.
    fn taken(&mut self) -> String {
        mem::replace(&mut self.text, String::new())
    }

    fn end_word(&mut self) {
        if !self.text.is_empty() {
            let word = self.taken();
            self.step.push(Token::Word(word));
        }
    }

    fn end_step(&mut self) {
        self.end_word();
        self.steps.push(mem::take(&mut self.step));
    }

    fn take_plain(&mut self, ch: char) {
        match ch {
            ' ' => self.end_word(),
            '|' => self.end_step(),
            ',' => {
                self.end_word();
                self.step.push(Token::Comma);
            }
            '"' => self.place = Place::Text,
            _ => self.text.push(ch),
        }
    }

    fn take_text(&mut self, ch: char) {
        match ch {
            '"' => {
                let text = self.taken();
                self.step.push(Token::Text(text));
                self.place = Place::Plain;
            }
            '\\' => self.place = Place::Escape,
            _ => self.text.push(ch),
        }
    }

    fn take_escape(&mut self, ch: char) {
        self.place = Place::Text;
        match ch {
            'n' => self.text.push('\n'),
            't' => self.text.push('\t'),
            'u' => self.place = Place::Number(0),
            _ => self.text.push(ch),
        }
    }

    fn take_number(&mut self, number: u32, ch: char) {
        if ch == '}' {
            self.place = Place::Text;
            self.text.push(char::from_u32(number).unwrap_or('?'));
        } else if let Some(digit) = ch.to_digit(16) {
            self.place = Place::Number(number.wrapping_mul(16).wrapping_add(digit));
        }
    }

    fn take(&mut self, ch: char) {
        match self.place {
            Place::Plain => self.take_plain(ch),
            Place::Text => self.take_text(ch),
            Place::Escape => self.take_escape(ch),
            Place::Number(number) => self.take_number(number, ch),
        }
    }
}

/// The steps of a call.
pub fn steps_of(call: &str) -> Result<Vec<Vec<Token>>, Fault> {
    let mut tokens = Tokens {
        steps: Vec::new(),
        step: Vec::new(),
        text: String::new(),
        place: Place::Plain,
    };
    for ch in call.chars() {
        tokens.take(ch);
    }
    if tokens.place != Place::Plain {
        return Err(Fault::Unread);
    }
    tokens.end_step();
    Ok(tokens.steps)
}
