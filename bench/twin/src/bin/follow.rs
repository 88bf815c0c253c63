//! The Rust twin of the port's program `follow`: shows standard input line by line above a status line, as it comes, by the crate's
//! terminal and ratatui's rules over `crossterm`. `follow COLUMNS ROWS` writes to standard output.
#[path = "../bytes.rs"]
#[allow(dead_code)]
mod bytes;

use bytes::BytesBackend;
use ratatui_core::backend::Backend;
use ratatui_core::layout::Size;
use ratatui_core::terminal::{Terminal, TerminalOptions, Viewport};
use ratatui_core::widgets::Widget;
use std::io::{self, BufRead, BufWriter, Write};

fn draw_status<W: Write>(terminal: &mut Terminal<BytesBackend<W>>, count: u64) -> io::Result<()> {
    let text = format!("lines: {count}");
    terminal.draw(|frame| text.as_str().render(frame.area(), frame.buffer_mut()))?;
    Ok(())
}

fn follow(mut reader: impl BufRead, writer: impl Write, size: Size) -> io::Result<()> {
    let options = TerminalOptions { viewport: Viewport::Inline(1) };
    let mut terminal = Terminal::with_options(BytesBackend::new(writer, size), options)?;
    draw_status(&mut terminal, 0)?;
    let mut line = String::new();
    let mut count = 0;
    while reader.read_line(&mut line)? > 0 {
        let text = line.trim_end_matches(['\r', '\n']);
        terminal.insert_before(1, |buffer| text.render(buffer.area, buffer))?;
        count += 1;
        draw_status(&mut terminal, count)?;
        line.clear();
    }
    terminal.backend_mut().append_lines(1)?;
    terminal.show_cursor()
}

fn main() -> io::Result<()> {
    let mut words = std::env::args().skip(1).filter_map(|word| word.parse().ok());
    let (Some(width), Some(height)) = (words.next(), words.next()) else {
        return Err(io::Error::new(io::ErrorKind::InvalidInput, "usage: follow COLUMNS ROWS"));
    };
    follow(io::stdin().lock(), BufWriter::new(io::stdout().lock()), Size { width, height })
}
