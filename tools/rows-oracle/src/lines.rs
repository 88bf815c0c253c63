//! Calls on lines.
use crate::answer::Answer;
use crate::args::Args;
use crate::fault::Fault;
use crate::texts::alike;
use crate::tokens::Token;
use ratatui_core::layout::HorizontalAlignment;
use ratatui_core::text::Line;

fn made<'a>(args: &mut Args<'a>) -> Result<Line<'a>, Fault> {
    Ok(match args.word()? {
        "raw" => Line::raw(args.text()?),
        "styled" => {
            let text = args.text()?;
            Line::styled(text, args.style())
        }
        "raw_string" => Line::from(String::from(args.text()?)),
        "from_span" => Line::from(args.span()?),
        "from_slice" => Line::from(args.line()?.spans),
        "from_spans" => Line::from(args.line()?.spans),
        "from_vec" => Line::from(args.line()?.spans),
        "try_from_iter" => args.line()?.into_iter().collect(),
        "default" => Line::default(),
        "line" => args.line()?,
        _ => return Err(Fault::Unread),
    })
}

fn changed<'a>(line: Line<'a>, word: &str, args: &mut Args<'a>) -> Result<Line<'a>, Fault> {
    Ok(match word {
        "spans" => line.spans(args.line()?.spans),
        "style" => line.style(args.style()),
        "patch_style" => line.patch_style(args.style()),
        "reset_style" => line.reset_style(),
        "alignment" => line.alignment(args.value::<HorizontalAlignment>()?),
        "left_aligned" => line.left_aligned(),
        "centered" => line.centered(),
        "right_aligned" => line.right_aligned(),
        "try_add" => line + args.span()?,
        _ => return extended(line, word, args),
    })
}

// A line after a call that changes it in place.
fn extended<'a>(mut line: Line<'a>, word: &str, args: &mut Args<'a>) -> Result<Line<'a>, Fault> {
    match word {
        "push_span" => line.push_span(args.span()?),
        "try_extend" => line.extend(args.line()?),
        "iter_mut" => {
            let style = args.style();
            for span in line.iter_mut() {
                span.style = span.style.patch(style);
            }
        }
        _ => return Err(Fault::Unread),
    }
    Ok(line)
}

// Asks a line something; whether there is such a question.
fn asked(
    line: &Line<'_>,
    word: &str,
    args: &mut Args<'_>,
    answer: &mut Answer,
) -> Result<bool, Fault> {
    match word {
        "width" => answer.add(line.width())?,
        "clone" => answer.add(line.clone())?,
        "print" => answer.print(line)?,
        "equal" => alike(line, &args.line()?, answer)?,
        "styled_graphemes" => {
            for grapheme in line.styled_graphemes(args.style()) {
                answer.add(grapheme)?;
            }
        }
        "iter" => {
            for span in line.iter() {
                answer.add(span.content.as_ref())?;
            }
        }
        "try_add_line" => answer.add(line.clone() + args.line()?)?,
        "try_into_string" => answer.add(String::from(line.clone()).as_str())?,
        _ => return Ok(false),
    }
    Ok(true)
}

/// A line, and calls on it; the line itself if nothing was asked.
pub fn line(args: &mut Args<'_>, later: &[Vec<Token>], answer: &mut Answer) -> Result<(), Fault> {
    let mut line = made(args)?;
    for step in later {
        let mut args = Args::new(step.as_slice());
        let word = args.word()?;
        if !asked(&line, word, &mut args, answer)? {
            line = changed(line, word, &mut args)?;
        }
        args.end()?;
    }
    if answer.is_empty() {
        answer.add(line)
    } else {
        Ok(())
    }
}
