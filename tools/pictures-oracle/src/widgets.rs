//! Boxes, paragraphs, lists, gauges and tables.
use crate::cases::{line_of, pair_of, span_of, styled_front, text_of, Case};
use tui::{
    buffer::Buffer,
    layout::{Constraint, Corner},
    symbols::line,
    text::Text,
    widgets::{
        Block, BorderType, Borders, Cell, Gauge, LineGauge, List, ListItem, ListState, Paragraph, Row, StatefulWidget, Table, TableState,
        Widget, Wrap,
    },
};

pub fn block(case: &Case<'_>, buffer: &mut Buffer) -> Option<()> {
    if case.has_any(&["padding", "places", "at", "titles"]) || case.texts.len() > 1 {
        return None;
    }
    let mut borders = Borders::NONE;
    for letter in case.option("borders").unwrap_or("tlrb").chars() {
        borders |= match letter {
            't' => Borders::TOP,
            'l' => Borders::LEFT,
            'r' => Borders::RIGHT,
            _ => Borders::BOTTOM,
        };
    }
    let kind = match case.text("type") {
        "rounded" => BorderType::Rounded,
        "double" => BorderType::Double,
        "thick" => BorderType::Thick,
        "" => BorderType::Plain,
        _ => return None,
    };
    let mut block = Block::default()
        .borders(borders)
        .border_type(kind)
        .style(case.style("style"))
        .border_style(case.style("lines"))
        .title_alignment(case.alignment("align"));
    if let Some(title) = case.texts.first() {
        block = block.title(line_of(title));
    }
    block.render(case.area(), buffer);
    Some(())
}

pub fn paragraph(case: &Case<'_>, buffer: &mut Buffer) {
    let text = Text { lines: case.texts.iter().map(|text| line_of(text)).collect() };
    let (down, right) = pair_of(case.text("scroll")).unwrap_or((0, 0));
    let mut paragraph = Paragraph::new(text)
        .style(case.style("style"))
        .alignment(case.alignment("align"))
        .scroll((down as u16, right as u16));
    if let Some(kind) = case.option("wrap") {
        paragraph = paragraph.wrap(Wrap { trim: kind == "trim" });
    }
    if let Some(frame) = case.frame() {
        paragraph = paragraph.block(frame);
    }
    paragraph.render(case.area(), buffer);
}

fn number(number: Option<usize>) -> String {
    number.map_or("-".to_owned(), |number| number.to_string())
}

/// The first number in a state's text: tui's states keep their offset to themselves.
fn offset_in(state: &str) -> usize {
    let digits = state.split_once("offset: ").map_or("0", |(_, rest)| rest.split([',', ' ']).next().unwrap_or("0"));
    digits.parse().unwrap_or(0)
}

pub fn list(case: &Case<'_>, buffer: &mut Buffer) -> Option<String> {
    if case.has_any(&["padding", "marks"]) {
        return None;
    }
    let items: Vec<ListItem> = case
        .texts
        .iter()
        .map(|text| {
            let (style, content) = styled_front(text);
            ListItem::new(text_of(content)).style(style)
        })
        .collect();
    let mut list = List::new(items)
        .style(case.style("style"))
        .highlight_style(case.style_or("highlight", "^"))
        .highlight_symbol(case.text("symbol"))
        .repeat_highlight_symbol(case.option("repeat").is_some());
    if case.text("from") == "bottom" {
        list = list.start_corner(Corner::BottomLeft);
    }
    let area = case.area();
    let mut height = area.height;
    if let Some(frame) = case.frame() {
        height = frame.inner(area).height;
        list = list.block(frame);
    }
    let mut state = ListState::default();
    // An offset can't be set: it follows from a selection that was shown before.
    if let Some(offset) = case.number::<usize>("offset") {
        state.select(Some((offset + usize::from(height)).saturating_sub(1)));
        StatefulWidget::render(list.clone(), area, &mut Buffer::empty(area), &mut state);
    }
    state.select(case.number("selected"));
    StatefulWidget::render(list, area, buffer, &mut state);
    Some(format!("state {} {} -\n", offset_in(&format!("{state:?}")), number(state.selected())))
}

pub fn gauge(case: &Case<'_>, buffer: &mut Buffer) {
    let mut gauge = Gauge::default()
        .style(case.style("style"))
        .gauge_style(case.style("bar"))
        .use_unicode(case.option("unicode").is_some())
        .ratio(share(case));
    if let Some(label) = case.option("label") {
        gauge = gauge.label(span_of(label));
    }
    if let Some(frame) = case.frame() {
        gauge = gauge.block(frame);
    }
    gauge.render(case.area(), buffer);
}

fn share(case: &Case<'_>) -> f64 {
    match pair_of(case.text("ratio")) {
        Some((parts, whole)) => parts.min(whole) as f64 / whole as f64,
        None => f64::from(case.number::<u16>("percent").unwrap_or(0)) / 100.0,
    }
}

pub fn line_gauge(case: &Case<'_>, buffer: &mut Buffer) -> Option<()> {
    let (filled, unfilled) = (case.style("filled"), case.style("unfilled"));
    // tui has one style: its background is the foreground of the rest.
    if filled.bg.is_some() || unfilled.bg.is_some() || filled.add_modifier != unfilled.add_modifier {
        return None;
    }
    let mut gauge = LineGauge::default()
        .ratio(share(case))
        .style(case.style("style"))
        .gauge_style(tui::style::Style { bg: unfilled.fg, ..filled })
        .line_set(match case.text("set") {
            "thick" => line::THICK,
            "double" => line::DOUBLE,
            _ => line::NORMAL,
        });
    if let Some(label) = case.option("label") {
        gauge = gauge.label(line_of(label));
    }
    if let Some(frame) = case.frame() {
        gauge = gauge.block(frame);
    }
    gauge.render(case.area(), buffer);
    Some(())
}

fn constraint(word: &str) -> Option<Constraint> {
    let value = |digits: &str| digits.parse().unwrap_or(0);
    Some(match word.split_at(1) {
        ("p", digits) => Constraint::Percentage(value(digits)),
        ("m", digits) => Constraint::Min(value(digits)),
        ("M", digits) => Constraint::Max(value(digits)),
        ("l", digits) => Constraint::Length(value(digits)),
        ("r", digits) => {
            let (over, under) = digits.split_once('/').unwrap_or((digits, "1"));
            Constraint::Ratio(over.parse().unwrap_or(0), under.parse().unwrap_or(1))
        }
        _ => return None,
    })
}

fn row<'a>(case: &Case<'a>, text: &'a str) -> Row<'a> {
    let (style, text) = styled_front(text);
    let mut height = 1;
    let cells: Vec<Cell> = text
        .split(';')
        .map(|cell| {
            let (style, content) = styled_front(cell);
            let content = text_of(content);
            height = height.max(content.height());
            Cell::from(content).style(style)
        })
        .collect();
    Row::new(cells)
        .style(style)
        .height(case.number("height").unwrap_or(height as u16))
        .bottom_margin(case.number("margin").unwrap_or(0))
}

pub fn table(case: &Case<'_>, buffer: &mut Buffer) -> Option<String> {
    if case.has_any(&["column", "footer", "flex", "marks", "top", "offset"]) {
        return None;
    }
    let widths: Option<Vec<Constraint>> = case.option("widths")?.split(',').map(constraint).collect();
    let widths = widths?;
    let mut rows: Vec<Row> = case.texts.iter().map(|text| row(case, text)).collect();
    let header = (case.option("header").is_some() && !rows.is_empty()).then(|| rows.remove(0));
    let mut table = Table::new(rows)
        .widths(&widths)
        .style(case.style("style"))
        .column_spacing(case.number("spacing").unwrap_or(1))
        .highlight_style(case.style_or("highlight", "^"))
        .highlight_symbol(case.text("symbol"));
    if let Some(header) = header {
        table = table.header(header);
    }
    if let Some(frame) = case.frame() {
        table = table.block(frame);
    }
    let mut state = TableState::default();
    state.select(case.number("selected"));
    StatefulWidget::render(table, case.area(), buffer, &mut state);
    Some(format!("state {} {} -\n", offset_in(&format!("{state:?}")), number(state.selected())))
}
