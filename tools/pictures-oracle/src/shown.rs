//! What a buffer shows.
use crate::cases::MODIFIERS;
use tui::{
    buffer::{Buffer, Cell},
    style::Color,
    text::Span,
};

fn letter_of(color: Color) -> char {
    match color {
        Color::Reset => ' ',
        Color::Black => 'k',
        Color::Red => 'r',
        Color::Green => 'g',
        Color::Yellow => 'y',
        Color::Blue => 'b',
        Color::Magenta => 'm',
        Color::Cyan => 'c',
        Color::White => 'w',
        _ => '?',
    }
}

fn push_signs(shown: &mut String, row: &[Cell], mark: char, sign: impl Fn(&Cell) -> char) {
    if row.iter().any(|cell| sign(cell) != ' ') {
        shown.push(mark);
        shown.extend(row.iter().map(sign));
        shown.push_str("|\n");
    }
}

/// Adds the rows of a buffer to a text, and under each the signs of its styles.
pub fn push_rows(shown: &mut String, buffer: &Buffer) {
    let width = usize::from(buffer.area.width);
    if width == 0 {
        return (0..buffer.area.height).for_each(|_| shown.push_str("||\n"));
    }
    for row in buffer.content.chunks(width) {
        let mut covered = 0;
        shown.push('|');
        for cell in row {
            if covered > 0 {
                covered -= 1;
            } else {
                covered = Span::raw(cell.symbol.as_str()).width().saturating_sub(1);
                shown.push_str(&cell.symbol);
            }
        }
        shown.push_str("|\n");
        push_signs(shown, row, 'f', |cell| letter_of(cell.fg));
        push_signs(shown, row, 'b', |cell| letter_of(cell.bg));
        for (mark, modifier) in MODIFIERS {
            push_signs(shown, row, mark, |cell| if cell.modifier.contains(modifier) { mark } else { ' ' });
        }
    }
}
