//! The cases of `crates/row_widgets`, drawn by tui 0.19, ratatui's ancestor. `row_widgets` says how a case is written.
//!
//! It reads cases from standard input, a line each, and prints each case, its picture, and a blank line. In place of a picture it
//! prints `panics`, or `lacks` if tui doesn't have what the case says.
mod bars;
mod cases;
mod graphs;
mod shown;
mod widgets;

use cases::{case_of, Case};
use std::io::{self, BufRead};
use tui::{buffer::Buffer, buffer::Cell, widgets::{Clear, Widget}};

/// Renders the widget of a case and returns its state, or nothing if tui lacks it.
fn render(case: &Case<'_>, buffer: &mut Buffer) -> Option<String> {
    match case.kind {
        "block" => widgets::block(case, buffer)?,
        "clear" => Clear.render(case.area(), buffer),
        "paragraph" => widgets::paragraph(case, buffer),
        "list" => return widgets::list(case, buffer),
        "gauge" => widgets::gauge(case, buffer),
        "linegauge" => widgets::line_gauge(case, buffer)?,
        "tabs" => bars::tabs(case, buffer)?,
        "table" => return widgets::table(case, buffer),
        "sparkline" => bars::sparkline(case, buffer)?,
        "barchart" => bars::bar_chart(case, buffer)?,
        "canvas" => graphs::canvas(case, buffer)?,
        "chart" => graphs::chart(case, buffer)?,
        _ => return None,
    }
    Some(String::new())
}

fn picture(case: &Case<'_>) -> Option<String> {
    let mut buffer = Buffer::empty(tui::layout::Rect::new(0, 0, case.width, case.height));
    if let Some(signs) = case.option("ground") {
        let mut cell = Cell::default();
        cell.set_symbol("x").set_style(cases::style_of(signs));
        buffer.content.fill(cell);
    }
    let mut shown = render(case, &mut buffer)?;
    shown::push_rows(&mut shown, &buffer);
    Some(shown)
}

fn main() {
    std::panic::set_hook(Box::new(|_| {}));
    for line in io::stdin().lock().lines().map_while(Result::ok) {
        let Some(case) = case_of(&line) else { continue };
        let shown = match std::panic::catch_unwind(|| picture(&case)) {
            Err(_) => "panics\n".to_owned(),
            Ok(None) => "lacks\n".to_owned(),
            Ok(Some(shown)) => shown,
        };
        println!("{line}\n{shown}");
    }
}
