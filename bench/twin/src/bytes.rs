//! A backend that sends bytes by the crate `crossterm`, with the rules of ratatui's own backend over it.
use crossterm::cursor::{Hide, MoveTo, Show};
use crossterm::style::{Attribute, Colors, Print, SetAttribute, SetBackgroundColor, SetColors, SetForegroundColor, SetUnderlineColor};
use crossterm::terminal::{Clear, ClearType as Cleared};
use crossterm::{execute, queue};
use ratatui_core::backend::{Backend, ClearType, WindowSize};
use ratatui_core::buffer::Cell;
use ratatui_core::layout::{Position, Size};
use ratatui_core::style::{Color, Modifier};
use std::io::{self, Write};
use std::ops::Range;

/// A writer that keeps what was written since it was flushed, and counts the bytes.
#[derive(Default)]
pub struct Memory {
    kept: Vec<u8>,
    flushed: u64,
}

impl Memory {
    pub fn flushed(&self) -> u64 {
        self.flushed
    }
}

impl Write for Memory {
    fn write(&mut self, buf: &[u8]) -> io::Result<usize> {
        self.kept.write(buf)
    }
    fn write_all(&mut self, buf: &[u8]) -> io::Result<()> {
        self.kept.write_all(buf)
    }
    fn flush(&mut self) -> io::Result<()> {
        self.flushed += self.kept.len() as u64;
        self.kept.clear();
        Ok(())
    }
}

/// The backend. A real one asks the terminal for its size and its cursor's place; this one was told the size, and begins at the origin.
pub struct BytesBackend<W: Write> {
    writer: W,
    size: Size,
}

impl<W: Write> BytesBackend<W> {
    pub fn new(writer: W, size: Size) -> Self {
        BytesBackend { writer, size }
    }
    pub fn writer(&self) -> &W {
        &self.writer
    }
}

fn color(color: Color) -> crossterm::style::Color {
    use crossterm::style::Color as C;
    match color {
        Color::Reset => C::Reset,
        Color::Black => C::Black,
        Color::Red => C::DarkRed,
        Color::Green => C::DarkGreen,
        Color::Yellow => C::DarkYellow,
        Color::Blue => C::DarkBlue,
        Color::Magenta => C::DarkMagenta,
        Color::Cyan => C::DarkCyan,
        Color::Gray => C::Grey,
        Color::DarkGray => C::DarkGrey,
        Color::LightRed => C::Red,
        Color::LightGreen => C::Green,
        Color::LightYellow => C::Yellow,
        Color::LightBlue => C::Blue,
        Color::LightMagenta => C::Magenta,
        Color::LightCyan => C::Cyan,
        Color::White => C::White,
        Color::Indexed(i) => C::AnsiValue(i),
        Color::Rgb(r, g, b) => C::Rgb { r, g, b },
    }
}

// What an added modifier sends, and what a removed one does; bold and dim share theirs.
const ADDED: [(Modifier, Attribute); 8] = [
    (Modifier::REVERSED, Attribute::Reverse),
    (Modifier::BOLD, Attribute::Bold),
    (Modifier::ITALIC, Attribute::Italic),
    (Modifier::UNDERLINED, Attribute::Underlined),
    (Modifier::DIM, Attribute::Dim),
    (Modifier::CROSSED_OUT, Attribute::CrossedOut),
    (Modifier::SLOW_BLINK, Attribute::SlowBlink),
    (Modifier::RAPID_BLINK, Attribute::RapidBlink),
];
const REMOVED: [(Modifier, Attribute); 5] = [
    (Modifier::REVERSED, Attribute::NoReverse),
    (Modifier::ITALIC, Attribute::NoItalic),
    (Modifier::UNDERLINED, Attribute::NoUnderline),
    (Modifier::CROSSED_OUT, Attribute::NotCrossedOut),
    (Modifier::SLOW_BLINK.union(Modifier::RAPID_BLINK), Attribute::NoBlink),
];

fn modify<W: Write>(writer: &mut W, from: Modifier, to: Modifier) -> io::Result<()> {
    let (removed, mut added) = (from - to, to - from);
    if removed.intersects(Modifier::BOLD | Modifier::DIM) {
        queue!(writer, SetAttribute(Attribute::NormalIntensity))?;
        added |= to & (Modifier::BOLD | Modifier::DIM);
    }
    for (modifier, attribute) in REMOVED {
        if removed.intersects(modifier) {
            queue!(writer, SetAttribute(attribute))?;
        }
    }
    for (modifier, attribute) in ADDED {
        if added.contains(modifier) {
            queue!(writer, SetAttribute(attribute))?;
        }
    }
    Ok(())
}

impl<W: Write> Backend for BytesBackend<W> {
    type Error = io::Error;

    fn draw<'a, I>(&mut self, content: I) -> io::Result<()>
    where
        I: Iterator<Item = (u16, u16, &'a Cell)>,
    {
        let writer = &mut self.writer;
        let (mut fg, mut bg, mut underline) = (Color::Reset, Color::Reset, Color::Reset);
        let mut modifier = Modifier::empty();
        let mut next: Option<(u16, u16)> = None;
        for (x, y, cell) in content {
            if next != Some((x, y)) {
                queue!(writer, MoveTo(x, y))?;
            }
            next = Some((x + 1, y));
            if cell.modifier != modifier {
                modify(writer, modifier, cell.modifier)?;
                modifier = cell.modifier;
            }
            if cell.fg != fg || cell.bg != bg {
                queue!(writer, SetColors(Colors::new(color(cell.fg), color(cell.bg))))?;
                (fg, bg) = (cell.fg, cell.bg);
            }
            if cell.underline_color != underline {
                queue!(writer, SetUnderlineColor(color(cell.underline_color)))?;
                underline = cell.underline_color;
            }
            queue!(writer, Print(cell.symbol()))?;
        }
        use crossterm::style::Color::Reset;
        queue!(
            writer,
            SetForegroundColor(Reset),
            SetBackgroundColor(Reset),
            SetUnderlineColor(Reset),
            SetAttribute(Attribute::Reset)
        )
    }
    fn append_lines(&mut self, n: u16) -> io::Result<()> {
        for _ in 0..n {
            queue!(self.writer, Print("\n"))?;
        }
        self.writer.flush()
    }
    fn hide_cursor(&mut self) -> io::Result<()> {
        execute!(self.writer, Hide)
    }
    fn show_cursor(&mut self) -> io::Result<()> {
        execute!(self.writer, Show)
    }
    fn get_cursor_position(&mut self) -> io::Result<Position> {
        Ok(Position::ORIGIN)
    }
    fn set_cursor_position<P: Into<Position>>(&mut self, position: P) -> io::Result<()> {
        let Position { x, y } = position.into();
        execute!(self.writer, MoveTo(x, y))
    }
    fn clear(&mut self) -> io::Result<()> {
        self.clear_region(ClearType::All)
    }
    fn clear_region(&mut self, clear_type: ClearType) -> io::Result<()> {
        execute!(
            self.writer,
            Clear(match clear_type {
                ClearType::All => Cleared::All,
                ClearType::AfterCursor => Cleared::FromCursorDown,
                ClearType::BeforeCursor => Cleared::FromCursorUp,
                ClearType::CurrentLine => Cleared::CurrentLine,
                ClearType::UntilNewLine => Cleared::UntilNewLine,
            })
        )
    }
    fn size(&self) -> io::Result<Size> {
        Ok(self.size)
    }
    fn window_size(&mut self) -> io::Result<WindowSize> {
        Ok(WindowSize { columns_rows: self.size, pixels: Size::ZERO })
    }
    fn flush(&mut self) -> io::Result<()> {
        self.writer.flush()
    }
    #[cfg(feature = "scrolling-regions")]
    fn scroll_region_up(&mut self, region: Range<u16>, n: u16) -> io::Result<()> {
        self.scroll(region, n, 'S')
    }
    #[cfg(feature = "scrolling-regions")]
    fn scroll_region_down(&mut self, region: Range<u16>, n: u16) -> io::Result<()> {
        self.scroll(region, n, 'T')
    }
}

#[cfg(feature = "scrolling-regions")]
impl<W: Write> BytesBackend<W> {
    // Scrolls the rows of a region, which is set as margins for that.
    fn scroll(&mut self, region: Range<u16>, n: u16, letter: char) -> io::Result<()> {
        if n > 0 {
            write!(self.writer, "\x1b[{};{}r\x1b[{n}{letter}\x1b[r", region.start + 1, region.end)?;
        }
        self.writer.flush()
    }
}
