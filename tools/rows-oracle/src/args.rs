//! The arguments of a call.
use crate::fault::Fault;
use crate::tokens::Token;
use ratatui_core::layout::{Margin, Offset, Position, Rect, Size};
use std::str::FromStr;

/// The arguments of a step that aren't read yet.
pub struct Args<'a> {
    rest: &'a [Token],
}

impl<'a> Args<'a> {
    pub fn new(rest: &'a [Token]) -> Args<'a> {
        Args { rest }
    }

    /// Whether nothing is left.
    pub fn is_empty(&self) -> bool {
        self.rest.is_empty()
    }

    // The next token that isn't a comma.
    fn token(&mut self) -> Option<&'a Token> {
        let (first, rest) = self.rest.split_first()?;
        self.rest = rest;
        match first {
            Token::Comma => {
                let (second, rest) = self.rest.split_first()?;
                self.rest = rest;
                Some(second)
            }
            token => Some(token),
        }
    }

    /// The next word.
    pub fn word(&mut self) -> Result<&'a str, Fault> {
        match self.token() {
            Some(Token::Word(word)) => Ok(word.as_str()),
            _ => Err(Fault::Unread),
        }
    }

    /// The next text.
    pub fn text(&mut self) -> Result<&'a str, Fault> {
        match self.token() {
            Some(Token::Text(text)) => Ok(text.as_str()),
            _ => Err(Fault::Unread),
        }
    }

    /// Refuses what is left over.
    pub fn end(&self) -> Result<(), Fault> {
        if self.is_empty() {
            Ok(())
        } else {
            Err(Fault::Unread)
        }
    }

    /// How many tokens are left.
    pub fn len(&self) -> usize {
        self.rest.len()
    }

    // The next word, which is left, if one stands before the next comma.
    pub fn peek(&self) -> Option<&'a str> {
        match self.rest.first()? {
            Token::Word(word) => Some(word.as_str()),
            _ => None,
        }
    }

    /// Leaves out the next token.
    pub fn skip(&mut self) {
        if let Some((_, rest)) = self.rest.split_first() {
            self.rest = rest;
        }
    }

    /// Leaves out a comma that comes next.
    pub fn skip_comma(&mut self) {
        if let Some((Token::Comma, rest)) = self.rest.split_first() {
            self.rest = rest;
        }
    }

    /// Takes the next word if it is this one, before any comma.
    pub fn takes(&mut self, wanted: &str) -> bool {
        let is_next = self.peek() == Some(wanted);
        if is_next {
            self.skip();
        }
        is_next
    }

    /// The next text, if there is one before the next comma.
    pub fn next_text(&mut self) -> Option<&'a str> {
        let Some((Token::Text(text), rest)) = self.rest.split_first() else {
            return None;
        };
        self.rest = rest;
        Some(text.as_str())
    }

    /// The only character of the next text.
    pub fn char(&mut self) -> Result<char, Fault> {
        self.text()?.chars().next().ok_or(Fault::Unread)
    }

    pub fn u8(&mut self) -> Result<u8, Fault> {
        self.value::<u8>()
    }

    /// The next word, as a value that it names.
    pub fn value<T: FromStr>(&mut self) -> Result<T, Fault> {
        match self.word()?.parse::<T>() {
            Ok(value) => Ok(value),
            Err(_) => Err(Fault::Unread),
        }
    }

    pub fn u16(&mut self) -> Result<u16, Fault> {
        self.value::<u16>()
    }

    pub fn rect(&mut self) -> Result<Rect, Fault> {
        Ok(Rect {
            x: self.u16()?,
            y: self.u16()?,
            width: self.u16()?,
            height: self.u16()?,
        })
    }

    /// A rectangle for a call that requires one which ends at column and row 65535 at the latest.
    pub fn area(&mut self) -> Result<Rect, Fault> {
        let area = self.rect()?;
        let cut = Rect::new(area.x, area.y, area.width, area.height);
        if cut == area {
            Ok(cut)
        } else {
            Err(Fault::Requires)
        }
    }

    pub fn position(&mut self) -> Result<Position, Fault> {
        Ok(Position {
            x: self.u16()?,
            y: self.u16()?,
        })
    }

    pub fn size(&mut self) -> Result<Size, Fault> {
        Ok(Size {
            width: self.u16()?,
            height: self.u16()?,
        })
    }

    pub fn margin(&mut self) -> Result<Margin, Fault> {
        Ok(Margin {
            horizontal: self.u16()?,
            vertical: self.u16()?,
        })
    }

    pub fn offset(&mut self) -> Result<Offset, Fault> {
        Ok(Offset {
            x: self.value::<i32>()?,
            y: self.value::<i32>()?,
        })
    }
}
