//! The dashboard, as in the port's `dashboard.rt`, by tui 0.19 with its own terminal and its backend over crossterm.
use crate::widgets::sum;
use std::cell::Cell;
use std::io::{self, Write};
use tui::backend::CrosstermBackend;
use tui::buffer::Buffer;
use tui::layout::Rect;
use tui::style::{Color, Modifier, Style};
use tui::symbols::line;
use tui::terminal::{Terminal, TerminalOptions, Viewport};
use tui::text::{Span, Spans, Text};
use tui::widgets::{Block, BorderType, Borders, Gauge, LineGauge, List, ListItem, ListState, Paragraph, StatefulWidget, Widget, Wrap};

const FOX: &str = "the quick brown fox jumps over the lazy dog and runs away from it as fast as it can";

static NAMES: [&str; 24] = [
    "rtui_geometry", "rtui_layout", "rtui_style", "rtui_palette", "rtui_symbols", "rtui_merge", "rtui_cell", "rtui_text", "rtui_drawing",
    "ratatui_acts", "rtui_diff", "rtui_buffer", "rtui_widgets", "widget_canvas", "rtui_backend", "rtui_viewport", "rtui_insert",
    "rtui_terminal", "ratatui_core", "ratatui_ansi", "widget_boxes", "widget_meters", "widget_list", "ratatui_widgets",
];

fn framed(title: &str) -> Block<'_> {
    Block::default()
        .borders(Borders::ALL)
        .border_type(BorderType::Rounded)
        .border_style(Style::default().fg(Color::Cyan))
        .title(Span::styled(title, Style::default().fg(Color::Yellow)))
}
fn text<'a>() -> Text<'a> {
    let mut lines = vec![Spans::from(vec![
        Span::raw("Words are broken "),
        Span::styled("between", Style::default().fg(Color::Green).add_modifier(Modifier::UNDERLINED)),
        Span::raw(" them, and other words follow in the same row: "),
        Span::styled("a text in red of some words more", Style::default().fg(Color::LightRed)),
        Span::raw("; a longwordthatdoesntfitinarow is last."),
    ])];
    lines.extend((0..6).map(|_| Spans::from(FOX)));
    Text::from(lines)
}
fn items<'a>() -> Vec<ListItem<'a>> {
    let item = |name| {
        ListItem::new(Spans::from(vec![
            Span::styled("* ", Style::default().fg(Color::Green)),
            Span::styled(name, Style::default().fg(Color::White)),
        ]))
    };
    NAMES.into_iter().map(item).collect()
}
fn paint_upper(b: &mut Buffer, round: u64) {
    let area = *b.area();
    let half = area.width / 2;
    let height = area.height.saturating_sub(4);
    Paragraph::new(text()).block(framed(" Paragraph ")).wrap(Wrap { trim: true }).render(Rect::new(0, 0, half, height), b);
    let mut state = ListState::default();
    state.select(Some((round % 24) as usize));
    let list = List::new(items())
        .block(framed(" List "))
        .highlight_symbol("> ")
        .highlight_style(Style::default().bg(Color::Rgb(40, 60, 110)).add_modifier(Modifier::BOLD));
    StatefulWidget::render(list, Rect::new(half, 0, area.width - half, height), b, &mut state);
}
fn paint(b: &mut Buffer, round: u64) {
    paint_upper(b, round);
    let area = *b.area();
    Gauge::default()
        .block(framed(" Gauge "))
        .percent((round % 100) as u16)
        .use_unicode(true)
        .gauge_style(Style::default().fg(Color::Green).bg(Color::Rgb(30, 40, 30)))
        .label(Span::raw("a gauge"))
        .render(Rect::new(0, area.height.saturating_sub(4), area.width, 3), b);
    LineGauge::default()
        .ratio((round % 100) as f64 / 100.0)
        .line_set(line::THICK)
        .label("done")
        .gauge_style(Style::default().fg(Color::Magenta).bg(Color::DarkGray))
        .render(Rect::new(0, area.height.saturating_sub(1), area.width, 1), b);
}

struct Dashboard(u64);

impl Widget for Dashboard {
    fn render(self, _: Rect, b: &mut Buffer) {
        paint(b, self.0);
    }
}

// A writer that keeps what was written since it was flushed, and counts the bytes.
struct Memory<'a> {
    kept: Vec<u8>,
    flushed: &'a Cell<u64>,
}

impl Write for Memory<'_> {
    fn write(&mut self, buf: &[u8]) -> io::Result<usize> {
        self.kept.write(buf)
    }
    fn flush(&mut self) -> io::Result<()> {
        self.flushed.set(self.flushed.get() + self.kept.len() as u64);
        self.kept.clear();
        Ok(())
    }
}

/// Does rounds of it: how many bytes were flushed, and a sum over the upper part of the last one.
pub fn run(w: u16, h: u16, count: u64) -> (u64, u64) {
    let area = Rect::new(0, 0, w, h);
    let flushed = Cell::new(0);
    let memory = Memory { kept: Vec::new(), flushed: &flushed };
    let options = TerminalOptions { viewport: Viewport::fixed(area) };
    let mut t = Terminal::with_options(CrosstermBackend::new(memory), options).unwrap();
    for round in 0..count {
        t.draw(|f| f.render_widget(Dashboard(round), area)).unwrap();
    }
    let mut last = Buffer::empty(area);
    paint_upper(&mut last, count.saturating_sub(1));
    (flushed.get(), sum(&last))
}
