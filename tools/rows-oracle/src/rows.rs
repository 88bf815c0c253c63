//! Rows: a call, and what it answers.
use crate::answer::Answer;
use crate::args::Args;
use crate::fault::Fault;
use crate::tokens::{Token, steps_of};
#[cfg(feature = "screens")]
use crate::{backends, scripts, terminals};
use crate::{
    buffers, cells, geometry, layouts, lines, palettes, spans, styles, stylize, symbols,
    whole_texts,
};

// Makes the call of a row that has but one.
fn make_call(subject: &str, args: &mut Args<'_>, answer: &mut Answer) -> Result<(), Fault> {
    match subject {
        "rect" => geometry::rect(args, answer),
        "position" => geometry::position(args, answer),
        "offset" => geometry::offset(args, answer),
        "size" => geometry::size(args, answer),
        "margin" => geometry::margin(args, answer),
        "width" => cells::width(args, answer),
        "merge" => cells::merge(args, answer),
        #[cfg(feature = "screens")]
        "clear_type" => backends::clear_type(args, answer),
        "palette" => palettes::palette(args, answer),
        "symbols" => symbols::symbols(args, answer),
        #[cfg(feature = "screens")]
        "script" => scripts::script(args, answer),
        "layout_part" => layouts::layout_part(args, answer),
        "color" => styles::color(args, answer),
        "modifier" => styles::modifier(args, answer),
        "stylize" => stylize::stylize(args, answer),
        "masked" => whole_texts::masked(args, answer),
        "to_text" => whole_texts::to_text(args, answer),
        _ => Err(Fault::Unread),
    }
}

// Makes the calls of a row, each of which takes all its arguments.
fn make_calls(subject: &str, steps: &[Vec<Token>], answer: &mut Answer) -> Result<(), Fault> {
    let Some((first, later)) = steps.split_first() else {
        return Err(Fault::Unread);
    };
    let mut args = Args::new(first);
    match subject {
        "iterators" => geometry::iterators(&mut args, later, answer)?,
        "cell" => cells::cell(&mut args, later, answer)?,
        "buffer" | "diff" | "render" => buffers::buffer(&mut args, later, answer)?,
        #[cfg(feature = "screens")]
        "backend" => backends::backend(&mut args, later, answer)?,
        #[cfg(feature = "screens")]
        "terminal" => terminals::terminal(&mut args, later, answer)?,
        "layout" => layouts::layout(&mut args, later, answer)?,
        "style" => styles::style(&mut args, later, answer)?,
        "span" => spans::span(&mut args, later, answer)?,
        "line" => lines::line(&mut args, later, answer)?,
        "text" => whole_texts::text(&mut args, later, answer)?,
        _ if later.is_empty() => make_call(subject, &mut args, answer)?,
        _ => return Err(Fault::Unread),
    }
    args.end()
}

/// What the calls of a row answer, or the word for why they don't.
pub fn answer_of(subject: &str, call: &str) -> String {
    let mut answer = Answer::new();
    match steps_of(call).and_then(|steps| make_calls(subject, &steps, &mut answer)) {
        Ok(()) => answer.text,
        Err(fault) => fault.word().to_string(),
    }
}
