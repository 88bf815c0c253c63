//! Peers of the workloads on keys and areas of the Rattle program `bench`, beside the twin:
//! `peers WORKLOAD WIDTH HEIGHT ROUNDS`. Bytes go through crossterm's parser, areas through the
//! crate's own layout, without its cache; a key's frame goes through the parser, the crate's
//! terminal and the twin's backend.
use bytes::{BytesBackend, Memory};
use crossterm::event::{Event, EventParser, KeyCode};
use ratatui_core::backend::Backend;
use ratatui_core::layout::{Constraint, Layout, Rect, Size};
use ratatui_core::terminal::Terminal;
use std::hint::black_box;

#[path = "../../twin/src/bytes.rs"]
mod bytes;

// A text's bytes decoded each round; the sum counts the events.
fn decodes(count: u64, text: &str) -> u64 {
    let bytes = text.repeat(100);
    let mut parser = EventParser::new();
    let mut events = 0;
    for _ in 0..count {
        parser.each(black_box(bytes.as_bytes()), |event| {
            black_box(event);
            events += 1;
        });
    }
    events
}

// What an event makes of a count.
fn counted(count: u8, event: &Event) -> u8 {
    match event {
        Event::Key(key) if key.code == KeyCode::Char('+') => count.saturating_add(1),
        Event::Key(key) if key.code == KeyCode::Char('-') => count.saturating_sub(1),
        _ => count,
    }
}

fn draw(terminal: &mut Terminal<BytesBackend<Memory>>, count: u8) {
    let text = count.to_string();
    terminal.draw(|frame| frame.render_widget(text.as_str(), frame.area())).unwrap();
}

// A key's frame each round, from its byte to the bytes that are sent; the count goes up and down.
fn frames(rounds: u64, width: u16, height: u16) -> (u64, u64) {
    let backend = BytesBackend::new(Memory::default(), Size::new(width, height));
    let mut terminal = Terminal::new(backend).unwrap();
    terminal.backend_mut().flush().unwrap();
    let mut parser = EventParser::new();
    let mut count = 0;
    draw(&mut terminal, count);
    let before = terminal.backend().writer().flushed();
    for round in 0..rounds {
        let key = if round % 4 < 2 { b"+" } else { b"-" };
        parser.each(black_box(key), |event| count = counted(count, &event));
        draw(&mut terminal, count);
    }
    (terminal.backend().writer().flushed() - before, u64::from(count))
}

// A row cut into so many parts each round; the sum counts their columns.
fn splits(count: u64, width: u16, parts: usize) -> u64 {
    let mixed = [
        Constraint::Length(5),
        Constraint::Fill(1),
        Constraint::Percentage(10),
        Constraint::Min(3),
        Constraint::Max(7),
        Constraint::Ratio(1, 9),
    ];
    let layout = Layout::horizontal(mixed.into_iter().cycle().take(parts));
    let area = Rect::new(0, 0, width, 1);
    let columns = |_| layout.split(black_box(area)).iter().map(|part| u64::from(part.width)).sum::<u64>();
    (0..count).map(columns).sum()
}

fn run(name: &str, width: u16, height: u16, count: u64) -> Option<(u64, u64)> {
    let sum = match name {
        "app_keys" => return Some(frames(count, width, height)),
        "keys_text" => decodes(count, "the quick brown fox jumps over "),
        "keys_arrows" => decodes(count, "\u{1b}[A\u{1b}[B\u{1b}[1;5C"),
        "keys_mouse" => decodes(count, "\u{1b}[<0;12;34M\u{1b}[<35;13;34m"),
        "split_3" => splits(count, width, 3),
        "split_8" => splits(count, width, 8),
        "split_20" => splits(count, width, 20),
        _ => return None,
    };
    Some((count, sum))
}

fn main() {
    let words: Vec<String> = std::env::args().collect();
    let [_, name, width, height, rounds] = words.as_slice() else { std::process::exit(2) };
    let (Ok(width), Ok(height), Ok(count)) = (width.parse(), height.parse(), rounds.parse()) else {
        std::process::exit(2)
    };
    match run(name, width, height, count) {
        Some((count, sum)) => println!("{count} {sum}"),
        None => std::process::exit(2),
    }
}
