//! What calls answer, as text.
use crate::fault::Fault;
use ratatui_core::buffer::Cell;
use ratatui_core::layout::{Margin, Offset, Position, Rect, Size};
use std::fmt::Display;
use std::fmt::{self, Write};

/// What stands in an answer.
pub trait Show {
    /// Writes the value after a text.
    fn show(&self, out: &mut String) -> fmt::Result;
}

/// The answers of the calls of a row.
pub struct Answer {
    pub text: String,
}

impl Answer {
    pub fn new() -> Answer {
        Answer {
            text: String::new(),
        }
    }

    /// Whether nothing was answered.
    pub fn is_empty(&self) -> bool {
        self.text.is_empty()
    }

    // Parts the next answer from the former one.
    fn part(&mut self) -> fmt::Result {
        if self.text.is_empty() {
            Ok(())
        } else {
            self.text.write_str(", ")
        }
    }

    /// Adds a value.
    pub fn add<T: Show>(&mut self, value: T) -> Result<(), Fault> {
        self.put(&value)
    }

    /// Adds a value that is lent.
    pub fn put<T: Show>(&mut self, value: &T) -> Result<(), Fault> {
        self.part()?;
        value.show(&mut self.text)?;
        Ok(())
    }

    /// Adds a cell that is given, after its column and row.
    pub fn put_update(&mut self, x: u16, y: u16, cell: &Cell) -> Result<(), Fault> {
        self.part()?;
        write!(self.text, "{x} {y} ")?;
        cell.show(&mut self.text)?;
        Ok(())
    }

    /// Adds a word.
    pub fn word(&mut self, word: &str) -> Result<(), Fault> {
        self.part()?;
        self.text.push_str(word);
        Ok(())
    }

    /// Adds what a call was refused for.
    pub fn refused<T: Display>(&mut self, error: &T) -> Result<(), Fault> {
        self.part()?;
        write!(self.text, "refused: {error}")?;
        Ok(())
    }

    /// Adds what is printed of a value, as a text between quotes.
    pub fn print<T: Display>(&mut self, value: &T) -> Result<(), Fault> {
        let printed = value.to_string();
        self.part()?;
        quote(printed.as_str(), &mut self.text)?;
        Ok(())
    }
}

// Whether a character is written by its number.
fn is_numbered(ch: char) -> bool {
    ch.is_control()
        || matches!(ch, '\u{ad}' | '\u{180e}' | '\u{200b}'..='\u{200f}' | '\u{2060}' | '\u{fe00}'..='\u{fe0f}' | '\u{feff}')
}

fn escape(ch: char, out: &mut String) -> fmt::Result {
    match ch {
        '"' => out.write_str("\\\""),
        '\\' => out.write_str("\\\\"),
        '\n' => out.write_str("\\n"),
        '\t' => out.write_str("\\t"),
        _ => {
            if is_numbered(ch) {
                let number = u32::from(ch);
                write!(out, "\\u{{{number:x}}}")
            } else {
                out.write_char(ch)
            }
        }
    }
}

/// Writes a text with its control characters and invisible ones by their numbers.
pub fn escaped(text: &str, out: &mut String) -> fmt::Result {
    for ch in text.chars() {
        escape(ch, out)?;
    }
    Ok(())
}

/// Writes a text between quotes.
pub fn quote(text: &str, out: &mut String) -> fmt::Result {
    out.write_char('"')?;
    escaped(text, out)?;
    out.write_char('"')
}

impl Show for &str {
    fn show(&self, out: &mut String) -> fmt::Result {
        quote(self, out)
    }
}

impl Show for bool {
    fn show(&self, out: &mut String) -> fmt::Result {
        write!(out, "{self}")
    }
}

impl Show for i32 {
    fn show(&self, out: &mut String) -> fmt::Result {
        write!(out, "{self}")
    }
}

impl Show for u16 {
    fn show(&self, out: &mut String) -> fmt::Result {
        write!(out, "{self}")
    }
}

impl Show for u32 {
    fn show(&self, out: &mut String) -> fmt::Result {
        write!(out, "{self}")
    }
}

impl Show for usize {
    fn show(&self, out: &mut String) -> fmt::Result {
        write!(out, "{self}")
    }
}

impl<T: Show> Show for Option<T> {
    fn show(&self, out: &mut String) -> fmt::Result {
        match self {
            Some(value) => value.show(out),
            None => out.write_str("none"),
        }
    }
}

impl Show for Rect {
    fn show(&self, out: &mut String) -> fmt::Result {
        let (x, y, width, height) = (self.x, self.y, self.width, self.height);
        write!(out, "{x} {y} {width} {height}")
    }
}

impl Show for Position {
    fn show(&self, out: &mut String) -> fmt::Result {
        let (x, y) = (self.x, self.y);
        write!(out, "{x} {y}")
    }
}

impl Show for Size {
    fn show(&self, out: &mut String) -> fmt::Result {
        let (width, height) = (self.width, self.height);
        write!(out, "{width} {height}")
    }
}

impl Show for Margin {
    fn show(&self, out: &mut String) -> fmt::Result {
        let (horizontal, vertical) = (self.horizontal, self.vertical);
        write!(out, "{horizontal} {vertical}")
    }
}

impl Show for Offset {
    fn show(&self, out: &mut String) -> fmt::Result {
        let (x, y) = (self.x, self.y);
        write!(out, "{x} {y}")
    }
}
