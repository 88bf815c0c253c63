//! Terminals over the backend in memory, and calls on them.

use crate::answer::{Answer, Show};
use crate::args::Args;
use crate::backends::{change, put_backend, see};
use crate::fault::Fault;
use crate::tokens::Token;
use ratatui_core::backend::{Backend, TestBackend, TestError};
use ratatui_core::buffer::{Buffer, Cell, CellDiffOption};
use ratatui_core::layout::{Position, Rect};
use ratatui_core::terminal::{Frame, Terminal, TerminalOptions, Viewport};
use ratatui_core::text::Text;
use ratatui_core::widgets::Widget;
use std::fmt::{self, Write};

// What a call is refused for, if it is.
type Outcome = Result<(), String>;

// What a frame or rows are painted with: a text, or its characters, each in a column of its own.
struct Content<'a> {
    text: Text<'a>,
    by_characters: bool,
}

// A frame's content and where its cursor is, if it is shown.
struct Picture<'a> {
    content: Content<'a>,
    cursor: Option<Position>,
}

impl<'a> Args<'a> {
    fn content(&mut self) -> Result<Content<'a>, Fault> {
        let by_characters = self.takes("chars");
        let text = self.lines()?;
        Ok(Content {
            text,
            by_characters,
        })
    }

    // A content, and after a comma `cursor` and its place.
    fn picture(&mut self) -> Result<Picture<'a>, Fault> {
        let content = self.content()?;
        self.skip_comma();
        let cursor = if self.takes("cursor") {
            Some(self.position()?)
        } else {
            None
        };
        Ok(Picture { content, cursor })
    }

    fn viewport(&mut self, word: &str) -> Result<Viewport, Fault> {
        match word {
            "screen" => Ok(Viewport::Fullscreen),
            "inline" => Ok(Viewport::Inline(self.u16()?)),
            "fixed" => Ok(Viewport::Fixed(self.area()?)),
            _ => Err(Fault::Unread),
        }
    }
}

// Sets the characters of a text in a row, from a column on.
fn set_characters(buffer: &mut Buffer, from: Position, text: &str) {
    let mut place = from;
    for ch in text.chars() {
        if let Some(cell) = buffer.cell_mut(place) {
            cell.set_char(ch);
        }
        place.x = place.x.saturating_add(1);
    }
}

impl Content<'_> {
    fn paint(&self, buffer: &mut Buffer) {
        let area = buffer.area;
        if !self.by_characters {
            return (&self.text).render(area, buffer);
        }
        let mut place = area.as_position();
        for line in &self.text.lines {
            for span in &line.spans {
                set_characters(buffer, place, &span.content);
            }
            place.y = place.y.saturating_add(1);
        }
    }
}

impl Picture<'_> {
    fn paint(&self, frame: &mut Frame<'_>) {
        if let Some(position) = self.cursor {
            frame.set_cursor_position(position);
        }
        self.content.paint(frame.buffer_mut());
    }
}

// What a call is refused for, in the words of the port.
fn said<T>(outcome: Result<T, TestError>) -> Outcome {
    match outcome {
        Ok(_) => Ok(()),
        Err(error) => Err(format!("backend: {error}")),
    }
}

// Has the first cell of a buffer drawn each time.
fn set_always(buffer: &mut Buffer) {
    if let Some(cell) = buffer.cell_mut(Position::ORIGIN) {
        cell.diff_option = CellDiffOption::AlwaysUpdate;
    }
}

fn draw_told(terminal: &mut Terminal<TestBackend>) -> Outcome {
    match terminal.try_draw(|_| Err(TestError::Told)) {
        Ok(_) => Ok(()),
        Err(error) => Err(format!("closure: {error}")),
    }
}

// A call that draws a frame, inserts rows, or gives another size; none if there is no such call.
fn act(
    terminal: &mut Terminal<TestBackend>,
    word: &str,
    args: &mut Args<'_>,
) -> Result<Option<Outcome>, Fault> {
    Ok(Some(match word {
        "draw" => {
            let picture = args.picture()?;
            said(terminal.draw(|frame| picture.paint(frame)))
        }
        "draw_anew" => {
            let picture = args.picture()?;
            said(terminal.draw(|frame| {
                frame.buffer_mut().reset();
                picture.paint(frame);
            }))
        }
        "try_draw" => {
            let picture = args.picture()?;
            said(terminal.try_draw(|frame| {
                picture.paint(frame);
                Ok::<(), TestError>(())
            }))
        }
        "draw_always" => said(terminal.draw(|frame| set_always(frame.buffer_mut()))),
        "try_draw_told" => draw_told(terminal),
        "apply_buffer" => said(terminal.apply_buffer()),
        "apply_buffer_with_cursor" => {
            let position = args.position()?;
            said(terminal.apply_buffer_with_cursor(Some(position)))
        }
        "insert" => {
            let height = args.u16()?;
            let content = args.content()?;
            said(terminal.insert_before(height, |rows| content.paint(rows)))
        }
        "clear" => said(terminal.clear()),
        "autoresize" => said(terminal.autoresize()),
        "resize" => said(terminal.resize(args.area()?)),
        "flush" => said(terminal.flush()),
        "hide_cursor" => said(terminal.hide_cursor()),
        "show_cursor" => said(terminal.show_cursor()),
        "set_cursor_position" => said(terminal.set_cursor_position(args.position()?)),
        "set_cursor" => said(terminal.set_cursor(args.u16()?, args.u16()?)),
        _ => return Ok(None),
    }))
}

// A call that makes none of the backend's; whether there is such a call.
fn touch(
    terminal: &mut Terminal<TestBackend>,
    word: &str,
    args: &mut Args<'_>,
    answer: &mut Answer,
) -> Result<bool, Fault> {
    match word {
        "swap_buffers" => terminal.swap_buffers(),
        "paint" => {
            let content = args.content()?;
            content.paint(terminal.current_buffer_mut());
        }
        "mend_buffer" => {
            let area = terminal.get_frame().area();
            terminal.current_buffer_mut().resize(area);
        }
        "viewport_area" => answer.add(terminal.get_frame().area())?,
        "current_buffer" => answer.put(terminal.current_buffer_mut())?,
        "frame" => {
            let frame = terminal.get_frame();
            answer.add(frame.area())?;
            answer.add(frame.size())?;
            answer.add(frame.count())?;
        }
        _ => return Ok(false),
    }
    Ok(true)
}

// Asks a terminal something that its backend can refuse; whether there is such a question.
fn ask(
    terminal: &mut Terminal<TestBackend>,
    word: &str,
    answer: &mut Answer,
) -> Result<bool, Fault> {
    match word {
        "size" => match terminal.size() {
            Ok(size) => answer.add(size)?,
            Err(error) => answer.refused(&format!("backend: {error}"))?,
        },
        "get_cursor_position" => match terminal.get_cursor_position() {
            Ok(position) => answer.add(position)?,
            Err(error) => answer.refused(&format!("backend: {error}"))?,
        },
        "get_cursor" => match terminal.get_cursor() {
            Ok((x, y)) => answer.add(Position { x, y })?,
            Err(error) => answer.refused(&format!("backend: {error}"))?,
        },
        _ => return Ok(false),
    }
    Ok(true)
}

// One call on a terminal, its buffer or its backend.
fn step(
    terminal: &mut Terminal<TestBackend>,
    args: &mut Args<'_>,
    answer: &mut Answer,
) -> Result<(), Fault> {
    let word = args.word()?;
    if let Some(outcome) = act(terminal, word, args)? {
        return match outcome {
            Ok(()) => Ok(()),
            Err(error) => answer.refused(&error),
        };
    }
    if touch(terminal, word, args, answer)?
        || ask(terminal, word, answer)?
        || change(terminal.backend_mut(), word, args, answer)?
    {
        return Ok(());
    }
    see(terminal.backend(), word, args, answer)
}

// Puts a symbol in each column of each row.
fn fill(backend: &mut TestBackend, symbol: &Cell) -> Result<(), TestError> {
    let area = *backend.buffer().area();
    backend.draw(area.positions().map(|place| (place.x, place.y, symbol)))
}

// A screen of a size; after commas `full` with a symbol for each cell, `cursor` with its place, `fail_after` with a number.
fn screen(args: &mut Args<'_>) -> Result<TestBackend, Fault> {
    let mut backend = TestBackend::new(args.u16()?, args.u16()?);
    args.skip_comma();
    if args.takes("full") {
        let mut symbol = Cell::EMPTY;
        symbol.set_symbol(args.text()?);
        fill(&mut backend, &symbol).map_err(|_| Fault::Unread)?;
        args.skip_comma();
    }
    if args.takes("cursor") {
        backend
            .set_cursor_position(args.position()?)
            .map_err(|_| Fault::Unread)?;
        args.skip_comma();
    }
    if args.takes("fail_after") {
        backend.fail_after(args.value::<u64>()?);
        args.skip_comma();
    }
    Ok(backend)
}

/// A terminal, and calls on it; what is seen of its screen at the end, and its viewport.
pub fn terminal(
    args: &mut Args<'_>,
    later: &[Vec<Token>],
    answer: &mut Answer,
) -> Result<(), Fault> {
    let backend = screen(args)?;
    let word = args.word()?;
    let viewport = args.viewport(word)?;
    args.end()?;
    let mut terminal = match Terminal::with_options(backend, TerminalOptions { viewport }) {
        Ok(terminal) => terminal,
        Err(error) => return answer.refused(&format!("backend: {error}")),
    };
    for each in later {
        let mut args = Args::new(each.as_slice());
        step(&mut terminal, &mut args, answer)?;
        args.end()?;
    }
    put_backend(terminal.backend(), answer)?;
    answer.word("viewport ")?;
    terminal.get_frame().area().show(&mut answer.text)?;
    Ok(())
}
