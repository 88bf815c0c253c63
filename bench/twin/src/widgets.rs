//! Workloads on widgets: those of tui 0.19, ratatui's ancestor. Its widgets are used up when they are rendered, so that one that is kept is cloned each round.
use crate::mixed;
use tui::buffer::Buffer;
use tui::layout::Rect;
use tui::style::{Color, Style};
use tui::text::{Spans, Text};
use tui::widgets::{Block, Borders, List, ListItem, ListState, Paragraph, StatefulWidget, Widget, Wrap};

/// A sum over a buffer of tui.
pub fn sum(b: &Buffer) -> u64 {
    let mut s = 0xCBF29CE484222325;
    for cell in &b.content {
        for byte in cell.symbol.as_bytes() {
            s = mixed(s, *byte);
        }
        s = mixed(s, (cell.modifier.bits() & 0xFF) as u8);
    }
    s
}
fn blocks(area: Rect, count: u64) -> (u64, u64) {
    let mut b = Buffer::empty(area);
    let block = Block::default().borders(Borders::ALL).border_style(Style::default().fg(Color::Cyan)).title("title");
    for _ in 0..count {
        b.reset();
        block.clone().render(area, &mut b);
    }
    (count, sum(&b))
}
fn paragraphs(area: Rect, count: u64, text: Text<'_>) -> (u64, u64) {
    let mut b = Buffer::empty(area);
    let paragraph = Paragraph::new(text).wrap(Wrap { trim: true });
    for _ in 0..count {
        b.reset();
        paragraph.clone().render(area, &mut b);
    }
    (count, sum(&b))
}
fn lists(area: Rect, count: u64, items: usize) -> (u64, u64) {
    let mut b = Buffer::empty(area);
    let all: Vec<ListItem> = (0..items).map(|_| ListItem::new("an item of a list")).collect();
    let list = List::new(all).highlight_symbol("> ").highlight_style(Style::default().bg(Color::Blue));
    let mut state = ListState::default();
    for round in 0..count {
        b.reset();
        state.select(Some(if round % 2 == 0 { items - 1 } else { 0 }));
        StatefulWidget::render(list.clone(), area, &mut b, &mut state);
    }
    (count, sum(&b))
}

/// The workload of this name.
pub fn run(name: &str, w: u16, h: u16, count: u64) -> Option<(u64, u64)> {
    let area = Rect::new(0, 0, w, h);
    Some(match name {
        "block" => blocks(area, count),
        "paragraph_wrapped" => {
            let words = "the quick brown fox 日本語 jumps ".repeat(9);
            paragraphs(area, count, Text::from(vec![Spans::from(words); 200]))
        }
        "paragraph_long" => paragraphs(area, count, Text::from("a wrapped ".repeat(32_000))),
        "list" => lists(area, count, 100_000),
        "list_1000" => lists(area, count, 1_000),
        _ => return None,
    })
}
