//! The Rust twin of the port's program `logview_program`: reads a log from standard input and prints the screen that
//! shows it. Its first line is the screen's size, `COLUMNS ROWS`.
use ratatui_core::backend::TestBackend;
use ratatui_core::buffer::{Buffer, Cell, CellWidth};
use ratatui_core::layout::Size;
use ratatui_core::terminal::{Terminal, TerminalOptions, Viewport};
use ratatui_core::widgets::Widget;
use std::convert::Infallible;
use std::fmt;
use std::io::{self, BufWriter, Read, Write};
use std::process::ExitCode;

enum LogFault {
    Size,
    NotText,
    Read,
    Write,
}

impl fmt::Display for LogFault {
    fn fmt(&self, f: &mut fmt::Formatter<'_>) -> fmt::Result {
        match self {
            LogFault::Size => f.write_str("line 1: bad size"),
            LogFault::NotText => f.write_str("input: not text"),
            LogFault::Read => f.write_str("input: read failed"),
            LogFault::Write => Ok(()),
        }
    }
}

fn read_number(text: &str) -> Option<u16> {
    if text.bytes().all(|byte| byte.is_ascii_digit()) { text.parse().ok() } else { None }
}

fn read_size(line: &str) -> Option<Size> {
    let (width, height) = line.split_once(' ')?;
    let (width, height) = (read_number(width)?, read_number(height)?);
    (width > 0 && height > 0).then_some(Size { width, height })
}

/// A terminal over one row, the status line, below the lines that were pushed.
struct LogView {
    terminal: Terminal<TestBackend>,
    count: u64,
}

impl LogView {
    fn new(backend: TestBackend) -> Result<LogView, Infallible> {
        let options = TerminalOptions { viewport: Viewport::Inline(1) };
        let terminal = Terminal::with_options(backend, options)?;
        let mut view = LogView { terminal, count: 0 };
        view.draw_status()?;
        Ok(view)
    }

    fn draw_status(&mut self) -> Result<(), Infallible> {
        let text = format!("lines: {}", self.count);
        self.terminal.draw(|frame| {
            let area = frame.area();
            text.as_str().render(area, frame.buffer_mut());
        })?;
        Ok(())
    }

    fn push(&mut self, line: &str) -> Result<(), Infallible> {
        self.terminal.insert_before(1, |buffer: &mut Buffer| {
            let area = buffer.area;
            line.render(area, buffer);
        })?;
        self.count = self.count.saturating_add(1);
        self.draw_status()
    }
}

/// Writes the symbols of a row behind a mark, without the columns behind a wide one.
fn write_row<W: Write>(writer: &mut W, mark: &str, cells: &[Cell]) -> io::Result<()> {
    writer.write_all(mark.as_bytes())?;
    let mut behind = 0;
    for cell in cells {
        if behind > 0 {
            behind -= 1;
        } else {
            writer.write_all(cell.symbol().as_bytes())?;
            behind = cell.symbol().cell_width().saturating_sub(1);
        }
    }
    writer.write_all(b"\n")
}

fn write_buffer<W: Write>(writer: &mut W, mark: &str, buffer: &Buffer) -> io::Result<()> {
    for row in buffer.content.chunks(usize::from(buffer.area.width)) {
        write_row(writer, mark, row)?;
    }
    Ok(())
}

fn write_view<W: Write>(writer: &mut W, view: &LogView) -> io::Result<()> {
    let backend = view.terminal.backend();
    write_buffer(writer, "^", backend.scrollback())?;
    write_buffer(writer, "|", backend.buffer())?;
    writer.flush()
}

fn run(mut reader: impl Read, mut writer: impl Write) -> Result<(), LogFault> {
    let mut bytes = Vec::new();
    reader.read_to_end(&mut bytes).map_err(|_| LogFault::Read)?;
    let text = std::str::from_utf8(&bytes).map_err(|_| LogFault::NotText)?;
    let size = text.lines().next().and_then(read_size).ok_or(LogFault::Size)?;
    let Ok(mut view) = LogView::new(TestBackend::new(size.width, size.height));
    for line in text.lines().skip(1) {
        let Ok(()) = view.push(line);
    }
    write_view(&mut writer, &view).map_err(|_| LogFault::Write)
}

fn main() -> ExitCode {
    match run(io::stdin().lock(), BufWriter::new(io::stdout().lock())) {
        Ok(()) => ExitCode::SUCCESS,
        Err(LogFault::Write) => ExitCode::FAILURE,
        Err(fault) => {
            eprintln!("{fault}");
            ExitCode::FAILURE
        }
    }
}
