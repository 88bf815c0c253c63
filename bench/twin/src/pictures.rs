//! What a frame shows, as in the port's `pictures.rt`.
use crate::{dot, fill, letter, texts, wide};
use ratatui_core::buffer::Buffer;
use ratatui_core::layout::Rect;
use ratatui_core::style::{Color, Modifier, Style};
use ratatui_core::text::Span;
use ratatui_core::widgets::Widget;

pub const SENTENCE: &str = "The quick brown fox jumps over the lazy dog, and then it sleeps in the sun. The quick brown fox jumps over the lazy dog, and then it sleeps in the sun. The quick brown fox jumps over the lazy dog";

#[derive(Clone, Copy)]
pub enum Picture {
    Nothing,
    Letter,
    Dots,
    Wide,
    Spans,
    Sentence,
    Few,
    Colors,
    Boxes,
}

/// A picture, and the texts that it is made of.
pub struct Paint {
    picture: Picture,
    even: String,
    odd: String,
}

fn words(b: &mut Buffer, word: &str) {
    for y in 0..b.area.height {
        for k in 0..b.area.width / 6 {
            let x = k * 6;
            let color = ((usize::from(x) + usize::from(y)) % 251) as u8;
            let style = Style::new().fg(Color::Indexed(color)).bg(Color::Black);
            Span::styled(word, style).render(Rect::new(x, y, 6, 1), b);
        }
    }
}
fn few(b: &mut Buffer, round: u64) {
    let sign = if round % 2 == 0 { '#' } else { '+' };
    for cell in b.content.iter_mut().skip(30).step_by(60) {
        cell.set_char(sign);
    }
}
fn colors(b: &mut Buffer, round: u64) {
    for (k, cell) in b.content.iter_mut().enumerate() {
        let word = (k / 6) as u64 + round % 12;
        cell.fg = match word % 4 {
            0 => Color::Red,
            1 => Color::LightGreen,
            2 => Color::Indexed(208),
            _ => Color::Rgb(90, 120, 250),
        };
        if word % 3 == 0 {
            cell.bg = Color::Blue;
            cell.modifier = Modifier::BOLD;
        }
    }
}

impl Paint {
    pub fn new(picture: Picture) -> Paint {
        Paint { picture, even: wide(0), odd: wide(1) }
    }

    /// Paints the picture of a round.
    pub fn paint(&self, b: &mut Buffer, round: u64) {
        match self.picture {
            Picture::Nothing => {}
            Picture::Letter => fill(b, letter(round)),
            Picture::Dots => dot(b, round),
            Picture::Wide => texts(b, if round % 2 == 0 { &self.even } else { &self.odd }),
            Picture::Spans => words(b, ["alpha", "bravo", "delta"][(round % 3) as usize]),
            Picture::Sentence => texts(b, &SENTENCE[(round % 2) as usize..]),
            Picture::Few => {
                texts(b, SENTENCE);
                few(b, round);
            }
            Picture::Colors => {
                texts(b, SENTENCE);
                colors(b, round);
            }
            Picture::Boxes if round % 2 == 0 => crate::boxes::apart(b),
            Picture::Boxes => {}
        }
    }
}
