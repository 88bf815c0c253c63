//! Workloads on a terminal, as in the port's `terminals.rt`.
use crate::bytes::{BytesBackend, Memory};
use crate::counted::TestBackend;
use crate::pictures::{Paint, Picture};
use crate::sum;
use ratatui_core::backend::Backend;
use ratatui_core::buffer::Buffer;
use ratatui_core::layout::{Rect, Size};
use ratatui_core::style::{Color, Style};
use ratatui_core::terminal::{Terminal, TerminalOptions, Viewport};
use std::fmt::Debug;

/// What a round does on a terminal: rows come in above an inline viewport, and a picture is drawn.
#[derive(Clone, Copy)]
pub struct Act {
    pub viewport: Option<u16>,
    pub inserted: u16,
    pub picture: Option<Picture>,
}

const LOG: &str = "2026-11-23T12:30:00.123Z INFO worker-7 request GET /api/v1/items/4711 took 12.3 ms, status 200, 1834 bytes";

fn log_rows(b: &mut Buffer) {
    let style = Style::new().fg(Color::Yellow);
    for y in 0..b.area.height {
        b.set_string(0, y, LOG, style);
    }
}
fn terminal_of<B: Backend>(backend: B, rows: Option<u16>) -> Terminal<B>
where
    B::Error: Debug,
{
    let viewport = rows.map_or(Viewport::Fullscreen, Viewport::Inline);
    Terminal::with_options(backend, TerminalOptions { viewport }).unwrap()
}
// Does all rounds; answers a sum over the last picture.
fn rounds<B: Backend>(t: &mut Terminal<B>, act: Act, count: u64) -> u64
where
    B::Error: Debug,
{
    let paint = Paint::new(act.picture.unwrap_or(Picture::Nothing));
    let mut last = 0;
    for round in 0..count {
        if act.inserted > 0 {
            t.insert_before(act.inserted, log_rows).unwrap();
        }
        if act.picture.is_some() {
            let drawn = if act.inserted > 0 { 0 } else { round };
            let frame = t.draw(|f| paint.paint(f.buffer_mut(), drawn)).unwrap();
            if round == count - 1 {
                last = sum(frame.buffer);
            }
        }
    }
    last
}

/// Does rounds on a screen in memory.
pub fn on_screen(w: u16, h: u16, count: u64, act: Act) -> (u64, u64) {
    let mut t = terminal_of(TestBackend::new(w, h), act.viewport);
    rounds(&mut t, act, count);
    (t.backend().cells_written(), sum(t.backend().buffer()))
}

/// Does rounds of an application that sends bytes.
pub fn on_bytes(w: u16, h: u16, count: u64, act: Act) -> (u64, u64) {
    let backend = BytesBackend::new(Memory::default(), Size::new(w, h));
    let mut t = terminal_of(backend, act.viewport);
    t.backend_mut().flush().unwrap();
    let before = t.backend().writer().flushed();
    let last = rounds(&mut t, act, count);
    (t.backend().writer().flushed() - before, last)
}

/// Gives a viewport one column and one row less in each second round.
pub fn resizes(w: u16, h: u16, count: u64) -> (u64, u64) {
    let mut t = terminal_of(TestBackend::new(w, h), None);
    for round in 0..count {
        let less = (round % 2) as u16;
        t.resize(Rect::new(0, 0, w.saturating_sub(less), h.saturating_sub(less))).unwrap();
    }
    (count, sum(t.backend().buffer()))
}
