//! Calls on what layouts are made of, and on layouts as data.
use crate::answer::{Answer, Show};
use crate::args::Args;
use crate::fault::Fault;
use crate::tokens::Token;
use ratatui_core::layout::{
    Constraint, Direction, Flex, HorizontalAlignment, Layout, Spacing, VerticalAlignment,
};
use std::fmt::Display;
use std::fmt::{self, Write};
use std::str::FromStr;

impl Show for Constraint {
    fn show(&self, out: &mut String) -> fmt::Result {
        match self {
            Constraint::Min(n) => write!(out, "Min {n}"),
            Constraint::Max(n) => write!(out, "Max {n}"),
            Constraint::Length(n) => write!(out, "Length {n}"),
            Constraint::Percentage(n) => write!(out, "Percentage {n}"),
            Constraint::Ratio(n, m) => write!(out, "Ratio {n} {m}"),
            Constraint::Fill(n) => write!(out, "Fill {n}"),
        }
    }
}

impl Show for Spacing {
    fn show(&self, out: &mut String) -> fmt::Result {
        match self {
            Spacing::Space(n) => write!(out, "Space {n}"),
            Spacing::Overlap(n) => write!(out, "Overlap {n}"),
        }
    }
}

impl<'a> Args<'a> {
    fn constraint(&mut self) -> Result<Constraint, Fault> {
        Ok(match self.word()? {
            "Min" => Constraint::Min(self.u16()?),
            "Max" => Constraint::Max(self.u16()?),
            "Length" => Constraint::Length(self.u16()?),
            "Percentage" => Constraint::Percentage(self.u16()?),
            "Ratio" => Constraint::Ratio(self.value::<u32>()?, self.value::<u32>()?),
            "Fill" => Constraint::Fill(self.u16()?),
            _ => return Err(Fault::Unread),
        })
    }

    // The constraints that are left.
    fn constraints(&mut self) -> Result<Vec<Constraint>, Fault> {
        let mut all = Vec::new();
        for _ in 0..self.len() {
            if !self.is_empty() {
                all.push(self.constraint()?);
            }
        }
        Ok(all)
    }

    // The numbers that are left.
    fn numbers(&mut self) -> Result<Vec<u16>, Fault> {
        let mut all = Vec::new();
        for _ in 0..self.len() {
            if !self.is_empty() {
                all.push(self.u16()?);
            }
        }
        Ok(all)
    }

    // The pairs of numbers that are left.
    fn ratios(&mut self) -> Result<Vec<(u32, u32)>, Fault> {
        let mut all = Vec::new();
        for _ in 0..self.len() {
            if !self.is_empty() {
                all.push((self.value::<u32>()?, self.value::<u32>()?));
            }
        }
        Ok(all)
    }
}

/// Reads a text as the name of a value, and prints the value or why it is none.
pub fn named<T: FromStr + Display>(args: &mut Args<'_>, answer: &mut Answer) -> Result<(), Fault>
where
    T::Err: Display,
{
    match args.text()?.parse::<T>() {
        Ok(value) => answer.print(&value),
        Err(error) => answer.print(&error),
    }
}

/// A call on a direction, a flex, an alignment, a constraint, a spacing, or lists of constraints.
pub fn layout_part(args: &mut Args<'_>, answer: &mut Answer) -> Result<(), Fault> {
    match args.word()? {
        "Direction" => named::<Direction>(args, answer),
        "Flex" => named::<Flex>(args, answer),
        "HorizontalAlignment" => named::<HorizontalAlignment>(args, answer),
        "VerticalAlignment" => named::<VerticalAlignment>(args, answer),
        "perpendicular" => answer.print(&args.value::<Direction>()?.perpendicular()),
        "Direction::default" => answer.print(&Direction::default()),
        "Flex::default" => answer.print(&Flex::default()),
        "HorizontalAlignment::default" => answer.print(&HorizontalAlignment::default()),
        "VerticalAlignment::default" => answer.print(&VerticalAlignment::default()),
        "Constraint::default" => answer.add(Constraint::default()),
        "Spacing::default" => answer.add(Spacing::default()),
        "Constraint::from" => answer.add(Constraint::from(args.u16()?)),
        "Spacing::from_i32" => answer.add(Spacing::from(args.value::<i32>()?)),
        "Spacing::from_i16" => answer.add(Spacing::from(args.value::<i16>()?)),
        "Spacing::from_u16" => answer.add(Spacing::from(args.u16()?)),
        "from_lengths" => list(Constraint::from_lengths(args.numbers()?), answer),
        "from_maxes" => list(Constraint::from_maxes(args.numbers()?), answer),
        "from_mins" => list(Constraint::from_mins(args.numbers()?), answer),
        "from_fills" => list(Constraint::from_fills(args.numbers()?), answer),
        "from_percentages" => list(Constraint::from_percentages(args.numbers()?), answer),
        "from_ratios" => list(Constraint::from_ratios(args.ratios()?), answer),
        word => match word.strip_prefix("flex_") {
            Some(question) => flex(question, args.value::<Flex>()?, answer),
            None => constraint(word, args.constraint()?, args, answer),
        },
    }
}

fn list(constraints: Vec<Constraint>, answer: &mut Answer) -> Result<(), Fault> {
    for constraint in constraints.iter() {
        answer.add(*constraint)?;
    }
    Ok(())
}

fn flex(question: &str, flex: Flex, answer: &mut Answer) -> Result<(), Fault> {
    match question {
        "is_legacy" => answer.add(flex.is_legacy()),
        "is_start" => answer.add(flex.is_start()),
        "is_end" => answer.add(flex.is_end()),
        "is_center" => answer.add(flex.is_center()),
        "is_space_between" => answer.add(flex.is_space_between()),
        "is_space_evenly" => answer.add(flex.is_space_evenly()),
        "is_space_around" => answer.add(flex.is_space_around()),
        _ => Err(Fault::Unread),
    }
}

fn constraint(
    word: &str,
    constraint: Constraint,
    args: &mut Args<'_>,
    answer: &mut Answer,
) -> Result<(), Fault> {
    match word {
        "is_min" => answer.add(constraint.is_min()),
        "is_max" => answer.add(constraint.is_max()),
        "is_length" => answer.add(constraint.is_length()),
        "is_percentage" => answer.add(constraint.is_percentage()),
        "is_ratio" => answer.add(constraint.is_ratio()),
        "is_fill" => answer.add(constraint.is_fill()),
        "print" => answer.print(&constraint),
        "copy" => answer.add(Constraint::from(&constraint)),
        "as_ref" => {
            let lent: &Constraint = constraint.as_ref();
            answer.add(*lent)
        }
        "equal" => answer.add(constraint == args.constraint()?),
        _ => Err(Fault::Unread),
    }
}

// A layout after a call that changes it.
fn changed(layout: Layout, args: &mut Args<'_>) -> Result<Layout, Fault> {
    Ok(match args.word()? {
        "direction" => layout.direction(args.value::<Direction>()?),
        "constraints" => layout.constraints(args.constraints()?),
        "margin" => layout.margin(args.u16()?),
        "horizontal_margin" => layout.horizontal_margin(args.u16()?),
        "vertical_margin" => layout.vertical_margin(args.u16()?),
        "flex" => layout.flex(args.value::<Flex>()?),
        "spacing" => layout.spacing(Spacing::from(args.value::<i32>()?)),
        "clone" => layout.clone(),
        _ => return Err(Fault::Unread),
    })
}

fn made(args: &mut Args<'_>) -> Result<Layout, Fault> {
    Ok(match args.word()? {
        "default" => Layout::default(),
        "vertical" => Layout::vertical(args.constraints()?),
        "horizontal" => Layout::horizontal(args.constraints()?),
        "new" => {
            let direction = args.value::<Direction>()?;
            Layout::new(direction, args.constraints()?)
        }
        _ => return Err(Fault::Unread),
    })
}

/// A layout, and calls on it; its direction, margin, flex, spacing and constraints.
pub fn layout(args: &mut Args<'_>, later: &[Vec<Token>], answer: &mut Answer) -> Result<(), Fault> {
    let mut layout = made(args)?;
    for step in later {
        layout = changed(layout, &mut Args::new(step.as_slice()))?;
    }
    // The crate has no getters: what it prints for programmers is taken apart.
    let printed = format!("{layout:?}");
    answer.text = shown(&printed).ok_or(Fault::Unread)?;
    Ok(())
}

// What stands between two texts.
fn between<'a>(text: &'a str, before: &str, after: &str) -> Option<&'a str> {
    Some(text.split_once(before)?.1.split_once(after)?.0)
}

fn shown(printed: &str) -> Option<String> {
    let direction = between(printed, "direction: ", ",")?;
    let horizontal = between(printed, "horizontal: ", ",")?;
    let vertical = between(printed, "vertical: ", " }")?;
    let flex = between(printed, "flex: ", ",")?;
    let spacing = between(printed, "spacing: ", " }")?;
    let mut shown = format!(
        "\"{direction}\", {horizontal} {vertical}, \"{flex}\", {}",
        words(spacing)
    );
    for constraint in between(printed, "constraints: [", "]")?.split("), ") {
        if !constraint.is_empty() {
            shown = format!("{shown}, {}", words(constraint));
        }
    }
    Some(shown)
}

// `Ratio(1, 2)` as words.
fn words(call: &str) -> String {
    call.replace(['(', ','], " ")
        .replace("  ", " ")
        .replace(')', "")
}
