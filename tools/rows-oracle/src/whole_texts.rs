//! Calls on texts, on masked ones, and on what prints.
use crate::answer::Answer;
use crate::args::Args;
use crate::fault::Fault;
use crate::texts::alike;
use crate::tokens::Token;
use ratatui_core::layout::HorizontalAlignment;
use ratatui_core::text::{Masked, Text, ToLine, ToSpan, ToText};
use std::fmt::Display;
use std::fmt::{self, Write};

fn made<'a>(args: &mut Args<'a>) -> Result<Text<'a>, Fault> {
    Ok(match args.word()? {
        "raw" => Text::raw(args.text()?),
        "styled" => {
            let text = args.text()?;
            Text::styled(text, args.style())
        }
        "raw_string" => Text::from(String::from(args.text()?)),
        "from_span" => Text::from(args.span()?),
        "from_line" => Text::from(args.line()?),
        "from_slice" => Text::from(args.lines()?.lines),
        "from_vec" => Text::from(args.lines()?.lines),
        "from_lines" => Text::from(args.lines()?.lines),
        "try_from_iter" => args.lines()?.into_iter().collect(),
        "default" => Text::default(),
        "text" => args.lines()?,
        _ => return Err(Fault::Unread),
    })
}

fn changed<'a>(text: Text<'a>, word: &str, args: &mut Args<'a>) -> Result<Text<'a>, Fault> {
    Ok(match word {
        "style" => text.style(args.style()),
        "patch_style" => text.patch_style(args.style()),
        "reset_style" => text.reset_style(),
        "alignment" => text.alignment(args.value::<HorizontalAlignment>()?),
        "left_aligned" => text.left_aligned(),
        "centered" => text.centered(),
        "right_aligned" => text.right_aligned(),
        "try_add_line" => text + args.line()?,
        "try_add" => text + args.lines()?,
        _ => return extended(text, word, args),
    })
}

// A text after a call that changes it in place.
fn extended<'a>(mut text: Text<'a>, word: &str, args: &mut Args<'a>) -> Result<Text<'a>, Fault> {
    match word {
        "push_line" => text.push_line(args.line()?),
        "push_span" => text.push_span(args.span()?),
        "append" => text += args.lines()?,
        "try_extend" => text.extend(args.lines()?),
        "iter_mut" => {
            let style = args.style();
            for line in text.iter_mut() {
                line.style = line.style.patch(style);
            }
        }
        _ => return Err(Fault::Unread),
    }
    Ok(text)
}

// Asks a text something; whether there is such a question.
fn asked(
    text: &Text<'_>,
    word: &str,
    args: &mut Args<'_>,
    answer: &mut Answer,
) -> Result<bool, Fault> {
    match word {
        "width" => answer.add(text.width())?,
        "height" => answer.add(text.height())?,
        "clone" => answer.add(text.clone())?,
        "print" => answer.print(text)?,
        "equal" => alike(text, &args.lines()?, answer)?,
        "iter" => {
            for line in text.iter() {
                answer.print(line)?;
            }
        }
        _ => return Ok(false),
    }
    Ok(true)
}

/// A text, and calls on it; the text itself if nothing was asked.
pub fn text(args: &mut Args<'_>, later: &[Vec<Token>], answer: &mut Answer) -> Result<(), Fault> {
    let mut text = made(args)?;
    for step in later {
        let mut args = Args::new(step.as_slice());
        let word = args.word()?;
        if !asked(&text, word, &mut args, answer)? {
            text = changed(text, word, &mut args)?;
        }
        args.end()?;
    }
    if answer.is_empty() {
        answer.add(text)
    } else {
        Ok(())
    }
}

/// A call on a masked text: the text, its mask, and what is asked.
pub fn masked(args: &mut Args<'_>, answer: &mut Answer) -> Result<(), Fault> {
    let word = args.word()?;
    let (text, mask) = (args.text()?, args.char()?);
    let masked = Masked::new(text, mask);
    match word {
        "value" => answer.add(masked.value().as_ref()),
        "mask_char" => answer.print(&masked.mask_char()),
        "print" => answer.print(&masked),
        "debug" => answer.add(format!("{masked:?}").as_str()),
        "to_text" => answer.add(masked.to_text()),
        "clone" => answer.add(masked.clone() == masked),
        "equal" => {
            let (text, mask) = (args.text()?, args.char()?);
            alike(&masked, &Masked::new(text, mask), answer)
        }
        _ => Err(Fault::Unread),
    }
}

fn printed<T: Display>(word: &str, value: &T, answer: &mut Answer) -> Result<(), Fault> {
    match word {
        "to_span" => answer.add(value.to_span()),
        "to_line" => answer.add(value.to_line()),
        "to_text" => answer.add(value.to_text()),
        _ => Err(Fault::Unread),
    }
}

/// What prints as a span, a line or a text.
pub fn to_text(args: &mut Args<'_>, answer: &mut Answer) -> Result<(), Fault> {
    let word = args.word()?;
    match args.word()? {
        "str" => printed(word, &args.text()?, answer),
        "String" => printed(word, &String::from(args.text()?), answer),
        "char" => printed(word, &args.char()?, answer),
        "bool" => printed(word, &args.value::<bool>()?, answer),
        "i32" => printed(word, &args.value::<i32>()?, answer),
        "u64" => printed(word, &args.value::<u64>()?, answer),
        "position" => printed(word, &args.position()?, answer),
        "span" => printed(word, &args.span()?, answer),
        _ => Err(Fault::Unread),
    }
}
