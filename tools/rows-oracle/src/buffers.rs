//! Buffers: as rows of symbols, and calls on one or on two of them.

use crate::answer::{Answer, Show, escaped};
use crate::args::Args;
use crate::cells::{change, look_of, put_option};
use crate::fault::Fault;
use crate::styles::put_style;
use crate::texts::alike;
use crate::tokens::Token;
use ratatui_core::buffer::{Buffer, Cell};
use ratatui_core::layout::{Position, Rect};
use ratatui_core::widgets::Widget;
use std::fmt::{self, Write};
use std::mem;

// Writes the symbol of a cell, in braces if it isn't one character.
fn put_symbol(cell: &Cell, out: &mut String) -> fmt::Result {
    let symbol = cell.symbol();
    if symbol.chars().count() == 1 {
        return escaped(symbol, out);
    }
    out.write_char('{')?;
    escaped(symbol, out)?;
    out.write_char('}')
}

/// Writes cells between bars.
pub fn put_row(cells: &[Cell], out: &mut String) -> fmt::Result {
    out.write_char('|')?;
    for cell in cells {
        put_symbol(cell, out)?;
    }
    out.write_char('|')
}

// Cells of one row, one beside the other, that look alike.
struct Run {
    area: Rect,
    words: String,
}

impl Run {
    fn at(position: Position, words: String) -> Run {
        Run {
            area: Rect {
                x: position.x,
                y: position.y,
                width: 1,
                height: 1,
            },
            words,
        }
    }

    // Whether a cell at this place that looks so goes on with it.
    fn goes_on(&self, position: Position, words: &str) -> bool {
        self.words.as_str() == words
            && self.area.y == position.y
            && self.area.x.saturating_add(self.area.width) == position.x
    }

    // Writes where it is and how it looks, if that isn't as usual.
    fn put(&self, out: &mut String) -> fmt::Result {
        if self.words.is_empty() {
            return Ok(());
        }
        out.write_str(", ")?;
        self.area.show(out)?;
        out.write_str(self.words.as_str())
    }
}

// Writes the looks of cells that aren't as usual.
fn put_looks(buffer: &Buffer, out: &mut String) -> fmt::Result {
    let mut run = Run::at(Position::ORIGIN, String::new());
    for (position, cell) in buffer.area.positions().zip(buffer.content.iter()) {
        let mut words = String::new();
        put_style(look_of(cell), &mut words)?;
        put_option(cell, &mut words)?;
        if run.goes_on(position, words.as_str()) {
            run.area.width = run.area.width.saturating_add(1);
        } else {
            run.put(out)?;
            run = Run::at(position, words);
        }
    }
    run.put(out)
}

impl Show for Buffer {
    fn show(&self, out: &mut String) -> fmt::Result {
        self.area.show(out)?;
        out.write_char(' ')?;
        let mut y = None;
        for (position, cell) in self.area.positions().zip(self.content.iter()) {
            if y != Some(position.y) {
                out.write_char('|')?;
                y = Some(position.y);
            }
            put_symbol(cell, out)?;
        }
        out.write_char('|')?;
        put_looks(self, out)
    }
}

// Refuses a place that isn't in a row of the area, or is before its first column.
fn row_at(area: Rect, x: u16, y: u16) -> Result<(), Fault> {
    if area.x <= x && area.y <= y && y - area.y < area.height {
        Ok(())
    } else {
        Err(Fault::Requires)
    }
}

// Paints on a buffer; whether there is such a call.
fn paint(
    buffer: &mut Buffer,
    word: &str,
    args: &mut Args<'_>,
    answer: &mut Answer,
) -> Result<bool, Fault> {
    match word {
        "set_string" => {
            let (x, y, text) = (args.u16()?, args.u16()?, args.text()?);
            row_at(buffer.area, x, y)?;
            buffer.set_string(x, y, text, args.style());
        }
        "set_stringn" => {
            let (x, y, text) = (args.u16()?, args.u16()?, args.text()?);
            let max = args.value::<usize>()?;
            row_at(buffer.area, x, y)?;
            let (x, y) = buffer.set_stringn(x, y, text, max, args.style());
            answer.add(Position { x, y })?;
        }
        "set_span" => {
            let (x, y, span, max) = (args.u16()?, args.u16()?, args.span()?, args.u16()?);
            row_at(buffer.area, x, y)?;
            let (x, y) = buffer.set_span(x, y, &span, max);
            answer.add(Position { x, y })?;
        }
        "set_line" => {
            let (x, y, line, max) = (args.u16()?, args.u16()?, args.line()?, args.u16()?);
            row_at(buffer.area, x, y)?;
            let (x, y) = buffer.set_line(x, y, &line, max);
            answer.add(Position { x, y })?;
        }
        "set_style" => buffer.set_style(args.rect()?, args.style()),
        _ => return render(buffer, word, args),
    }
    Ok(true)
}

// Renders a text on a buffer; whether there is such a call.
fn render(buffer: &mut Buffer, word: &str, args: &mut Args<'_>) -> Result<bool, Fault> {
    match word {
        "render_str" => {
            let (area, text) = (args.rect()?, args.text()?);
            row_at(buffer.area, area.x, area.y)?;
            text.render(area, buffer);
        }
        "render_string" => {
            let (area, text) = (args.rect()?, args.text()?);
            row_at(buffer.area, area.x, area.y)?;
            String::from(text).render(area, buffer);
        }
        "render_span" => {
            let area = args.rect()?;
            args.span()?.render(area, buffer);
        }
        "render_lent_span" => {
            let area = args.rect()?;
            (&args.span()?).render(area, buffer);
        }
        "render_line" => {
            let area = args.rect()?;
            args.line()?.render(area, buffer);
        }
        "render_lent_line" => {
            let area = args.rect()?;
            (&args.line()?).render(area, buffer);
        }
        "render_text" => {
            let area = args.rect()?;
            args.lines()?.render(area, buffer);
        }
        "render_lent_text" => {
            let area = args.rect()?;
            (&args.lines()?).render(area, buffer);
        }
        "render_some_line" => {
            let area = args.rect()?;
            Some(args.line()?).render(area, buffer);
        }
        _ => return Ok(false),
    }
    Ok(true)
}

// Gives a buffer another area, or changes a cell of it; whether there is such a call.
fn reshape(buffer: &mut Buffer, word: &str, args: &mut Args<'_>) -> Result<bool, Fault> {
    match word {
        "reset" => buffer.reset(),
        "resize" => buffer.resize(args.area()?),
        "cell_mut" => {
            let position = args.position()?;
            let Some(cell) = buffer.cell_mut(position) else {
                return Err(Fault::Requires);
            };
            let word = args.word()?;
            return change(cell, word, args);
        }
        "get_mut" => {
            let position = args.position()?;
            if !buffer.area.contains(position) {
                return Err(Fault::Requires);
            }
            let word = args.word()?;
            return change(buffer.get_mut(position.x, position.y), word, args);
        }
        "index_mut" => {
            let position = args.position()?;
            if !buffer.area.contains(position) {
                return Err(Fault::Requires);
            }
            let word = args.word()?;
            return change(&mut buffer[position], word, args);
        }
        _ => return Ok(false),
    }
    Ok(true)
}

// Asks a buffer something; whether there is such a question.
fn ask(
    buffer: &Buffer,
    word: &str,
    args: &mut Args<'_>,
    answer: &mut Answer,
) -> Result<bool, Fault> {
    match word {
        "area" => answer.add(buffer.area)?,
        "len" => answer.add(buffer.content.len())?,
        "show" => answer.put(buffer)?,
        "clone" => answer.add(buffer.clone())?,
        "cell" => match buffer.cell(args.position()?) {
            Some(cell) => answer.put(cell)?,
            None => answer.text.push_str("none"),
        },
        "pos_of" => {
            let index = args.value::<usize>()?;
            if index >= buffer.content.len() {
                return Err(Fault::Requires);
            }
            let (x, y) = buffer.pos_of(index);
            answer.add(Position { x, y })?;
        }
        "index_of" | "get" | "index" | "index_pair" => {
            return ask_at(buffer, word, args.position()?, answer);
        }
        _ => return Err(Fault::Unread),
    }
    Ok(true)
}

// Asks a buffer something of a place of its area.
fn ask_at(
    buffer: &Buffer,
    word: &str,
    position: Position,
    answer: &mut Answer,
) -> Result<bool, Fault> {
    if !buffer.area.contains(position) {
        return Err(Fault::Requires);
    }
    match word {
        "index_of" => answer.add(buffer.index_of(position.x, position.y))?,
        "get" => answer.put(buffer.get(position.x, position.y))?,
        "index" => answer.put(&buffer[position])?,
        "index_pair" => answer.put(&buffer[(position.x, position.y)])?,
        _ => return Ok(false),
    }
    Ok(true)
}

// A buffer of its own, or of cells, texts or lines.
fn made(args: &mut Args<'_>) -> Result<Buffer, Fault> {
    match args.word()? {
        "empty" => Ok(Buffer::empty(args.area()?)),
        "filled" => {
            let area = args.area()?;
            Ok(Buffer::filled(area, args.cell()?))
        }
        "default" => Ok(Buffer::default()),
        "from_texts" => {
            let mut texts = Vec::new();
            for _ in 0..args.len() {
                if let Some(text) = args.next_text() {
                    texts.push(text);
                }
            }
            Ok(Buffer::with_lines(texts))
        }
        "with_lines" => {
            let text = args.lines()?;
            let lines = text.lines;
            Ok(Buffer::with_lines(lines))
        }
        _ => Err(Fault::Unread),
    }
}

// The updates from one buffer to another.
fn put_diff(former: &Buffer, next: &Buffer, answer: &mut Answer) -> Result<(), Fault> {
    let (area, other) = (former.area, next.area);
    if other.x != area.x || other.y != area.y || other.width != area.width {
        return Err(Fault::Requires);
    }
    for (x, y, cell) in former.diff_iter(next) {
        answer.put_update(x, y, cell)?;
    }
    let count = former.diff(next).len();
    answer.add(count)
}

// Whether a call asks something, and leaves the buffers as they are.
fn is_question(word: &str) -> bool {
    match word {
        "area" | "len" | "is_settled" | "show" | "clone" | "row" | "cell" | "pos_of"
        | "index_of" | "get" | "index" | "index_pair" | "equal" | "diff" | "diff_rows" => true,
        _ => false,
    }
}

// A call on two buffers; whether there is such a call.
fn both(
    former: &mut Buffer,
    buffer: &mut Buffer,
    word: &str,
    args: &mut Args<'_>,
    answer: &mut Answer,
) -> Result<bool, Fault> {
    match word {
        "other" => *former = mem::replace(buffer, made(args)?),
        "swap" => mem::swap(former, buffer),
        "merge" => buffer.merge(former),
        "equal" => alike(former, buffer, answer)?,
        "diff" => put_diff(former, buffer, answer)?,
        _ => return Ok(false),
    }
    Ok(true)
}

/// A buffer, and calls on it and on the one before it; then the buffer itself, unless the last call asks something.
pub fn buffer(args: &mut Args<'_>, later: &[Vec<Token>], answer: &mut Answer) -> Result<(), Fault> {
    let mut former = Buffer::default();
    let mut buffer = made(args)?;
    let mut asked = false;
    for step in later {
        let mut args = Args::new(step.as_slice());
        let word = args.word()?;
        let args = &mut args;
        if !both(&mut former, &mut buffer, word, args, answer)?
            && !paint(&mut buffer, word, args, answer)?
            && !reshape(&mut buffer, word, args)?
        {
            ask(&buffer, word, args, answer)?;
        }
        asked = is_question(word);
        args.end()?;
    }
    if asked { Ok(()) } else { answer.add(buffer) }
}
