//! Tabs, sparklines and bar charts.
use crate::cases::{line_of, span_of, Case};
use tui::{
    buffer::Buffer,
    symbols::bar,
    widgets::{BarChart, Sparkline, Tabs, Widget},
};

pub fn tabs(case: &Case<'_>, buffer: &mut Buffer) -> Option<()> {
    if case.has_any(&["left", "right"]) {
        return None;
    }
    let mut tabs = Tabs::new(case.texts.iter().map(|text| line_of(text)).collect())
        .divider(span_of(case.option("divider").unwrap_or("│")))
        .style(case.style("style"))
        .highlight_style(case.style_or("highlight", "^"))
        .select(case.number("selected").unwrap_or(usize::MAX));
    if let Some(frame) = case.frame() {
        tabs = tabs.block(frame);
    }
    tabs.render(case.area(), buffer);
    Some(())
}

fn set(case: &Case<'_>) -> bar::Set {
    match case.text("set") {
        "three" => bar::THREE_LEVELS,
        _ => bar::NINE_LEVELS,
    }
}

pub fn sparkline(case: &Case<'_>, buffer: &mut Buffer) -> Option<()> {
    if case.has_any(&["from", "absent", "absents"]) {
        return None;
    }
    let data: Option<Vec<u64>> = case.text("data").split(',').filter(|word| !word.is_empty()).map(|word| word.parse().ok()).collect();
    let data = data?;
    let mut sparkline = Sparkline::default().data(&data).style(case.style("style")).bar_set(set(case));
    if let Some(max) = case.number("max") {
        sparkline = sparkline.max(max);
    }
    if let Some(frame) = case.frame() {
        sparkline = sparkline.block(frame);
    }
    sparkline.render(case.area(), buffer);
    Some(())
}

pub fn bar_chart(case: &Case<'_>, buffer: &mut Buffer) -> Option<()> {
    if case.has_any(&["groups", "direction"]) {
        return None;
    }
    let bar = |text: &&'static str| -> Option<(&'static str, u64)> {
        let (label, value) = text.split_once('=')?;
        Some((label, value.parse().ok()?))
    };
    // A line of the input stays as long as it is drawn.
    let texts: Vec<&'static str> = case.texts.iter().map(|text| &*text.to_string().leak()).collect();
    let data: Option<Vec<(&str, u64)>> = texts.iter().map(bar).collect();
    let data = data?;
    let mut chart = BarChart::default()
        .data(&data)
        .bar_width(case.number("width").unwrap_or(1))
        .bar_gap(case.number("gap").unwrap_or(1))
        .bar_set(set(case))
        .style(case.style("style"))
        .bar_style(case.style("bars"))
        .value_style(case.style("values"))
        .label_style(case.style("labels"));
    if let Some(max) = case.number("max") {
        chart = chart.max(max);
    }
    if let Some(frame) = case.frame() {
        chart = chart.block(frame);
    }
    chart.render(case.area(), buffer);
    Some(())
}
