//! Workloads on tables, tabs, bars, charts and canvases: those of tui 0.19, ratatui's ancestor. It has no scroll bar.
use crate::widgets::sum;
use tui::buffer::Buffer;
use tui::layout::{Constraint, Rect};
use tui::style::{Color, Modifier, Style};
use tui::symbols::Marker;
use tui::text::{Span, Spans};
use tui::widgets::canvas::{Canvas, Context, Line, Points, Rectangle};
use tui::widgets::{Axis, BarChart, Chart, Dataset, GraphType, Row, Sparkline, StatefulWidget, Table, TableState, Tabs, Widget};

const NAMES: [&str; 12] =
    ["alpha", "beta", "gamma", "delta", "epsilon", "zeta", "eta", "theta", "iota", "kappa", "lambda", "mu"];
const CELLS: [&str; 4] = ["a name", "a number", "some words in a column", "a date"];
const WIDTHS: [Constraint; 4] =
    [Constraint::Length(10), Constraint::Percentage(20), Constraint::Length(30), Constraint::Min(8)];

fn rows<'a>(count: usize) -> Vec<Row<'a>> {
    (0..count).map(|_| Row::new(CELLS)).collect()
}
fn table_of<'a>(rows: Vec<Row<'a>>) -> Table<'a> {
    Table::new(rows)
        .header(Row::new(["name", "count", "words", "date"]).style(Style::default().add_modifier(Modifier::BOLD)))
        .widths(&WIDTHS)
        .highlight_symbol("> ")
        .highlight_style(Style::default().bg(Color::Blue))
}
fn show_table(table: Table<'_>, count: usize, round: u64, area: Rect, b: &mut Buffer, state: &mut TableState) {
    state.select(Some(if round % 2 == 0 { count - 1 } else { 0 }));
    StatefulWidget::render(table, area, b, state);
}
fn tables(area: Rect, rounds: u64, count: usize) -> (u64, u64) {
    let mut b = Buffer::empty(area);
    let mut state = TableState::default();
    let table = table_of(rows(count));
    for round in 0..rounds {
        b.reset();
        show_table(table.clone(), count, round, area, &mut b, &mut state);
    }
    (rounds, sum(&b))
}
fn new_tables(area: Rect, rounds: u64, count: usize) -> (u64, u64) {
    let mut b = Buffer::empty(area);
    let mut state = TableState::default();
    for round in 0..rounds {
        b.reset();
        show_table(table_of(rows(count)), count, round, area, &mut b, &mut state);
    }
    (rounds, sum(&b))
}
fn tabs(area: Rect, rounds: u64) -> (u64, u64) {
    let mut b = Buffer::empty(area);
    for round in 0..rounds {
        Tabs::new(NAMES.iter().map(|name| Spans::from(*name)).collect())
            .select((round % 12) as usize)
            .highlight_style(Style::default().fg(Color::Yellow))
            .render(area, &mut b);
    }
    (rounds, sum(&b))
}
// A last bar without a gap isn't shown by tui: the area has six columns for each.
fn bars(whole: Rect, rounds: u64) -> (u64, u64) {
    let mut b = Buffer::empty(whole);
    let area = Rect { width: whole.width / 6 * 6, ..whole };
    for round in 0..rounds {
        b.reset();
        let data: Vec<(&str, u64)> = (0..36).map(|k| (NAMES[k as usize % 12], 1 + (k * 7 + round) % 90)).collect();
        BarChart::default()
            .data(&data)
            .max(90)
            .bar_width(5)
            .bar_gap(1)
            .bar_style(Style::default().fg(Color::Green))
            .value_style(Style::default().fg(Color::White))
            .render(area, &mut b);
    }
    (rounds, sum(&b))
}
fn sparklines(area: Rect, rounds: u64) -> (u64, u64) {
    let mut b = Buffer::empty(area);
    for round in 0..rounds {
        b.reset();
        let data: Vec<u64> = (0..200).map(|k| (k * 7 + round) % 97).collect();
        Sparkline::default().data(&data).max(96).style(Style::default().fg(Color::Green)).render(area, &mut b);
    }
    (rounds, sum(&b))
}
// Points over so many columns and rows of dots.
fn wave(columns: u16, rows: u16, round: u64) -> Vec<(f64, f64)> {
    (0..u64::from(columns)).map(|x| (x as f64, ((x * x / 7 + 3 * x + round) % u64::from(rows)) as f64)).collect()
}
fn axis<'a>(last: u16) -> Axis<'a> {
    Axis::default().bounds([0.0, f64::from(last)]).labels(vec![Span::raw("0"), Span::raw("50"), Span::raw("100")])
}
// The area of the dots leaves four columns and two rows to the axes and their labels.
fn charts(area: Rect, rounds: u64, marker: Marker, dots: (u16, u16), graph_type: GraphType) -> (u64, u64) {
    let (columns, rows) = ((area.width - 4) * dots.0, (area.height - 2) * dots.1);
    let mut b = Buffer::empty(area);
    for round in 0..rounds {
        b.reset();
        let data = wave(columns, rows, round);
        let dataset = Dataset::default().marker(marker).graph_type(graph_type).style(Style::default().fg(Color::Green)).data(&data);
        Chart::new(vec![dataset]).x_axis(axis(columns - 1)).y_axis(axis(rows - 1)).render(area, &mut b);
    }
    (rounds, sum(&b))
}
fn draw(c: &mut Context<'_>, right: f64, top: f64, dots: &[(f64, f64)]) {
    c.draw(&Rectangle { x: 0.0, y: 0.0, width: right, height: top, color: Color::Green });
    c.draw(&Points { coords: dots, color: Color::Yellow });
    c.layer();
    for k in 0..20 {
        let k = f64::from(k);
        c.draw(&Line { x1: 0.0, y1: k, x2: right, y2: top - 4.0 * k, color: Color::Red });
    }
    c.print(1.0, 1.0, "a corner");
    c.print(20.0, 20.0, "a label");
}
fn canvases(area: Rect, rounds: u64) -> (u64, u64) {
    let mut b = Buffer::empty(area);
    let (right, top) = (f64::from(area.width * 2 - 1), f64::from(area.height * 4 - 1));
    let dots = wave(area.width * 2, area.height * 4, 0);
    for _ in 0..rounds {
        b.reset();
        Canvas::default().x_bounds([0.0, right]).y_bounds([0.0, top]).paint(|c| draw(c, right, top, &dots)).render(area, &mut b);
    }
    (rounds, sum(&b))
}

/// The workload of this name.
pub fn run(name: &str, w: u16, h: u16, rounds: u64) -> Option<(u64, u64)> {
    let area = Rect::new(0, 0, w, h);
    Some(match name {
        "table_1000" => tables(area, rounds, 1_000),
        "table" => tables(area, rounds, 100_000),
        "table_new" => new_tables(area, rounds, 100),
        "tabs" => tabs(area, rounds),
        "bars" => bars(area, rounds),
        "sparkline" => sparklines(area, rounds),
        "chart_line" => charts(area, rounds, Marker::Braille, (2, 4), GraphType::Line),
        "chart_dots" => charts(area, rounds, Marker::Dot, (1, 1), GraphType::Scatter),
        "canvas" | "canvas_kept" => canvases(area, rounds),
        _ => return None,
    })
}
