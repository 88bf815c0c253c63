//! The cases that lines say, and their styles.
use tui::{
    layout::{Alignment, Rect},
    style::{Color, Modifier, Style},
    symbols::Marker,
    text::{Span, Spans, Text},
    widgets::{Block, Borders},
};

/// A case: a widget, the size of a buffer, options and texts.
pub struct Case<'a> {
    pub kind: &'a str,
    pub width: u16,
    pub height: u16,
    options: Vec<&'a str>,
    pub texts: Vec<&'a str>,
}

/// Returns the case that a line says, if it says one.
pub fn case_of(line: &str) -> Option<Case<'_>> {
    let (head, texts) = line.split_once("\t| ").unwrap_or((line, ""));
    let mut words = head.split('\t');
    let kind = words.next()?;
    let (width, height) = words.next()?.split_once('x')?;
    let texts = if texts.is_empty() { Vec::new() } else { texts.split(" | ").collect() };
    Some(Case { kind, width: width.parse().ok()?, height: height.parse().ok()?, options: words.collect(), texts })
}

pub fn pair_of(word: &str) -> Option<(i64, i64)> {
    let (a, b) = word.split_once(',')?;
    Some((a.parse().ok()?, b.parse().ok()?))
}

impl<'a> Case<'a> {
    pub fn option(&self, name: &str) -> Option<&'a str> {
        self.options.iter().map(|word| word.split_once('=').unwrap_or((word, ""))).find(|(key, _)| *key == name).map(|(_, value)| value)
    }

    pub fn text(&self, name: &str) -> &'a str {
        self.option(name).unwrap_or("")
    }

    pub fn number<N: std::str::FromStr>(&self, name: &str) -> Option<N> {
        self.option(name)?.parse().ok()
    }

    pub fn style(&self, name: &str) -> Style {
        style_of(self.text(name))
    }

    pub fn style_or(&self, name: &str, other: &str) -> Style {
        style_of(self.option(name).unwrap_or(other))
    }

    pub fn bounds(&self, name: &str) -> [f64; 2] {
        let (low, high) = pair_of(self.text(name)).unwrap_or((0, 10));
        [low as f64, high as f64]
    }

    pub fn alignment(&self, name: &str) -> Alignment {
        match self.text(name) {
            "center" => Alignment::Center,
            "right" => Alignment::Right,
            _ => Alignment::Left,
        }
    }

    pub fn area(&self) -> Rect {
        let numbers: Vec<u16> = self.text("in").split(',').filter_map(|word| word.parse().ok()).collect();
        match numbers[..] {
            [x, y, width, height] => Rect { x, y, width, height },
            _ => Rect::new(0, 0, self.width, self.height),
        }
    }

    pub fn frame(&self) -> Option<Block<'a>> {
        self.option("box")?;
        let frame = Block::default().borders(Borders::ALL).style(self.style("inside")).border_style(self.style("box"));
        Some(match self.option("title") {
            Some(title) => frame.title(line_of(title)),
            None => frame,
        })
    }

    pub fn marker(&self) -> Option<Marker> {
        match self.text("marker") {
            "dot" => Some(Marker::Dot),
            // Its block is ratatui's bar: a lower half block.
            "bar" | "block" => Some(Marker::Block),
            "" | "braille" => Some(Marker::Braille),
            _ => None,
        }
    }

    /// Whether it has one of these options, which tui doesn't know.
    pub fn has_any(&self, names: &[&str]) -> bool {
        names.iter().any(|name| self.option(name).is_some())
    }
}

pub fn color_of(letter: char) -> Option<Color> {
    Some(match letter {
        'k' => Color::Black,
        'r' => Color::Red,
        'g' => Color::Green,
        'y' => Color::Yellow,
        'b' => Color::Blue,
        'm' => Color::Magenta,
        'c' => Color::Cyan,
        'w' => Color::White,
        'n' => Color::Reset,
        _ => return None,
    })
}

pub const MODIFIERS: [(char, Modifier); 6] = [
    ('*', Modifier::BOLD),
    ('.', Modifier::DIM),
    ('/', Modifier::ITALIC),
    ('_', Modifier::UNDERLINED),
    ('^', Modifier::REVERSED),
    ('~', Modifier::CROSSED_OUT),
];

pub fn style_of(signs: &str) -> Style {
    signs.chars().fold(Style::default(), |style, sign| {
        if let Some(color) = color_of(sign) {
            style.fg(color)
        } else if let Some(color) = color_of(sign.to_ascii_lowercase()) {
            style.bg(color)
        } else {
            let modifier = MODIFIERS.iter().find(|(known, _)| *known == sign);
            style.add_modifier(modifier.map_or(Modifier::empty(), |(_, modifier)| *modifier))
        }
    })
}

pub fn styled_front(text: &str) -> (Style, &str) {
    match text.strip_prefix('<').and_then(|rest| rest.split_once('>')) {
        Some((signs, rest)) => (style_of(signs), rest),
        None => (Style::default(), text),
    }
}

pub fn span_of(text: &str) -> Span<'_> {
    let (style, content) = styled_front(text);
    Span::styled(content, style)
}

pub fn line_of(text: &str) -> Spans<'_> {
    let mut parts = text.split('{');
    let mut spans = vec![Span::raw(parts.next().unwrap_or(""))];
    for part in parts {
        if let Some((signs, content)) = part.split_once('}') {
            spans.push(Span::styled(content, style_of(signs)));
        }
    }
    Spans(spans)
}

pub fn text_of(text: &str) -> Text<'_> {
    Text { lines: text.split('\\').map(line_of).collect() }
}
