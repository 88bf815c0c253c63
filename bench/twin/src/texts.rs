//! The workloads of the port's `texts.rt`: widgets of texts, lines that are aligned, text of many kinds of graphemes, widths.
use crate::{dot, sheet, sum, texts, touch, wide};
use ratatui_core::buffer::{Buffer, CellWidth};
use ratatui_core::layout::{HorizontalAlignment, Rect};
use ratatui_core::style::{Color, Modifier, Style};
use ratatui_core::text::{Line, Span, Text};
use ratatui_core::widgets::Widget;
use std::hint::black_box;

static WORDS: [&str; 6] = [
    "let buffer",
    " = ",
    "Buffer::filled(area, cell)",
    "?; ",
    "// a grid of cells over an area of a screen, row by row",
    "!",
];

fn color(k: usize) -> Color {
    Color::Indexed((k % 251) as u8)
}

fn push_words(spans: &mut Vec<Span<'static>>, style: Style, first: u16) {
    for (k, word) in WORDS.iter().enumerate() {
        spans.push(Span::styled(*word, style.fg(color(usize::from(first) + k))));
    }
}
fn line_of(times: u8, style: Style, first: u16) -> Line<'static> {
    let mut spans = Vec::new();
    for _ in 0..times {
        push_words(&mut spans, style, first);
    }
    Line::from(spans)
}
fn text_of(count: u16) -> Text<'static> {
    let style = Style::new().add_modifier(Modifier::BOLD);
    let mut lines = vec![Line::default()];
    for first in 0..count {
        lines.push(line_of(1, style, first));
    }
    Text::from(lines)
}
fn text_widget(w: u16, h: u16, count: u64) -> (u64, u64) {
    let mut b = sheet(w, h);
    let text = text_of(h);
    let area = b.area;
    for round in 0..count {
        touch(&mut b, round);
        (&text).render(area, &mut b);
    }
    (count, sum(&b))
}
fn lines_aligned(w: u16, h: u16, count: u64, times: u8, alignment: HorizontalAlignment) -> (u64, u64) {
    let mut b = sheet(w, h);
    let line = line_of(times, Style::new(), 0).alignment(alignment);
    for round in 0..count {
        touch(&mut b, round);
        for y in 0..h {
            (&line).render(Rect::new(0, y, w, 1), &mut b);
        }
    }
    (count, sum(&b))
}

const MARKS: &str = "日本語👨‍👩‍👧‍👦e\u{301}한글🇯🇵👍🏽ñ😀漢字✈️Ω";

fn span_marks(w: u16, h: u16, count: u64) -> (u64, u64) {
    let mut b = sheet(w, h);
    let content = MARKS.repeat(8);
    let span = Span::styled(content.as_str(), Style::new().fg(Color::Green));
    for round in 0..count {
        touch(&mut b, round);
        for y in 0..h {
            (&span).render(Rect::new(0, y, w, 1), &mut b);
        }
    }
    (count, sum(&b))
}

const LOG: &str = "2026-11-23T12:30:00.123Z INFO worker-7 request GET /api/v1/items/4711 took 12.3 ms, status 200, 1834 bytes\n";

fn text_raw(count: u64) -> (u64, u64) {
    let content = LOG.repeat(935);
    let mut all = 0u64;
    for _ in 0..count {
        let text = Text::raw(black_box(content.as_str()));
        all = all.wrapping_add(black_box(&text).height() as u64);
    }
    (count, all)
}
fn widths(mut b: Buffer, count: u64) -> (u64, u64) {
    let mut all = 0u64;
    for round in 0..count {
        touch(&mut b, round);
        for cell in &black_box(&b).content {
            all = all.wrapping_add(u64::from(cell.cell_width()));
        }
    }
    (count, all)
}
fn letters_widths(w: u16, h: u16, count: u64) -> (u64, u64) {
    let mut b = sheet(w, h);
    dot(&mut b, 0);
    widths(b, count)
}
fn wide_widths(w: u16, h: u16, count: u64) -> (u64, u64) {
    let mut b = sheet(w, h);
    texts(&mut b, &wide(0));
    widths(b, count)
}

/// The workload of this name.
pub fn run(name: &str, w: u16, h: u16, n: u64) -> (u64, u64) {
    match name {
        "text_widget" => text_widget(w, h, n),
        "line_center" => lines_aligned(w, h, n, 1, HorizontalAlignment::Center),
        "line_right" => lines_aligned(w, h, n, 1, HorizontalAlignment::Right),
        "line_cut" => lines_aligned(w, h, n, 4, HorizontalAlignment::Right),
        "span_marks" => span_marks(w, h, n),
        "text_raw" => text_raw(n),
        "widths_letters" => letters_widths(w, h, n),
        "widths_wide" => wide_widths(w, h, n),
        _ => panic!("no such workload"),
    }
}
