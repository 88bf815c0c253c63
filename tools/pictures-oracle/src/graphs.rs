//! Canvases and charts.
use crate::cases::{color_of, line_of, pair_of, style_of, Case};
use tui::{
    buffer::Buffer,
    layout::Constraint,
    style::Color,
    text::{Span, Spans},
    widgets::{
        canvas::{Canvas, Line, Points, Rectangle},
        Axis, Chart, Dataset, GraphType, Widget,
    },
};

fn points(text: &str) -> Vec<(f64, f64)> {
    text.split(' ').filter_map(pair_of).map(|(x, y)| (x as f64, y as f64)).collect()
}

fn color(word: &str) -> Color {
    word.chars().next().and_then(color_of).unwrap_or(Color::Reset)
}

pub fn canvas(case: &Case<'_>, buffer: &mut Buffer) -> Option<()> {
    let marker = case.marker()?;
    if case.texts.iter().any(|text| text.starts_with("circle")) {
        return None;
    }
    let mut canvas = Canvas::default()
        .marker(marker)
        .x_bounds(case.bounds("x"))
        .y_bounds(case.bounds("y"))
        .background_color(color(case.text("back")))
        .paint(|shapes| {
            for text in &case.texts {
                let words: Vec<&str> = text.split(' ').collect();
                let word = |index: usize| words.get(index).copied().unwrap_or("");
                let n = |index: usize| word(index).parse::<i64>().unwrap_or(0) as f64;
                let color = color(word(1));
                match word(0) {
                    "line" => shapes.draw(&Line { x1: n(2), y1: n(3), x2: n(4), y2: n(5), color }),
                    "rectangle" => shapes.draw(&Rectangle { x: n(2), y: n(3), width: n(4), height: n(5), color }),
                    "points" => shapes.draw(&Points { coords: &points(text), color }),
                    "layer" => shapes.layer(),
                    "print" => {
                        let line = line_of(text.splitn(4, ' ').nth(3).unwrap_or(""));
                        let owned = line.0.into_iter().map(|span| Span::styled(span.content.into_owned(), span.style));
                        shapes.print(n(1), n(2), Spans(owned.collect()));
                    }
                    _ => {}
                }
            }
        });
    if let Some(frame) = case.frame() {
        canvas = canvas.block(frame);
    }
    canvas.render(case.area(), buffer);
    Some(())
}

fn axis<'a>(case: &Case<'a>, name: &str) -> Option<Axis<'a>> {
    let of = |option: &str| format!("{name}{option}");
    let labels = case.text(&of("labels"));
    let mut axis = Axis::default()
        .bounds(case.bounds(name))
        .style(case.style(&of("style")))
        .labels_alignment(case.alignment(&of("align")));
    if !labels.is_empty() {
        // A label is a span here.
        if labels.contains('{') {
            return None;
        }
        axis = axis.labels(labels.split(',').map(Span::raw).collect());
    }
    Some(match case.option(&of("title")) {
        Some(title) => axis.title(line_of(title)),
        None => axis,
    })
}

pub fn chart(case: &Case<'_>, buffer: &mut Buffer) -> Option<()> {
    let marker = case.marker()?;
    if case.option("legendat").is_some() || case.text("kind") == "bar" || case.text("names").contains('{') {
        return None;
    }
    let kind = match case.text("kind") {
        "line" => GraphType::Line,
        _ => GraphType::Scatter,
    };
    let data: Vec<Vec<(f64, f64)>> = case.texts.iter().map(|text| points(text)).collect();
    let mut names = case.text("names").split(',');
    let datasets = case
        .texts
        .iter()
        .zip(&data)
        .map(|(text, points)| {
            let style = style_of(text.split(' ').next().unwrap_or(""));
            let dataset = Dataset::default().marker(marker).graph_type(kind).data(points).style(style);
            match names.next().unwrap_or("") {
                "" => dataset,
                name => dataset.name(name),
            }
        })
        .collect();
    let mut chart = Chart::new(datasets).x_axis(axis(case, "x")?).y_axis(axis(case, "y")?).style(case.style("style"));
    if let Some((columns, rows)) = pair_of(case.text("legend")) {
        chart = chart.hidden_legend_constraints((Constraint::Length(columns as u16), Constraint::Length(rows as u16)));
    }
    if let Some(frame) = case.frame() {
        chart = chart.block(frame);
    }
    chart.render(case.area(), buffer);
    Some(())
}
