//! Calls on rectangles and on the small types beside them.
use crate::answer::Answer;
use crate::args::Args;
use crate::fault::Fault;
use crate::tokens::Token;
use ratatui_core::layout::{Columns, Margin, Offset, Position, Positions, Rect, Rows, Size};

/// A call on a rectangle.
pub fn rect(args: &mut Args<'_>, answer: &mut Answer) -> Result<(), Fault> {
    match args.word()? {
        "new" => answer.add(Rect::new(
            args.u16()?,
            args.u16()?,
            args.u16()?,
            args.u16()?,
        )),
        "ZERO" => answer.add(Rect::ZERO),
        "MIN" => answer.add(Rect::MIN),
        "MAX" => answer.add(Rect::MAX),
        "default" => answer.add(Rect::default()),
        "from_size" => answer.add(Rect::from(args.size()?)),
        "from_position_size" => answer.add(Rect::from((args.position()?, args.size()?))),
        word => rect_itself(word, args.rect()?, args, answer),
    }
}

// A call on a rectangle that asks for no other argument.
fn rect_itself(
    word: &str,
    rect: Rect,
    args: &mut Args<'_>,
    answer: &mut Answer,
) -> Result<(), Fault> {
    match word {
        "area" => answer.add(rect.area()),
        "is_empty" => answer.add(rect.is_empty()),
        "left" => answer.add(rect.left()),
        "right" => answer.add(rect.right()),
        "top" => answer.add(rect.top()),
        "bottom" => answer.add(rect.bottom()),
        "as_position" => answer.add(rect.as_position()),
        "as_size" => answer.add(rect.as_size()),
        "position_from" => answer.add(Position::from(rect)),
        "size_from" => answer.add(Size::from(rect)),
        "print" => answer.print(&rect),
        _ => rect_with(word, rect, args, answer),
    }
}

// A call on a rectangle with another argument.
fn rect_with(
    word: &str,
    rect: Rect,
    args: &mut Args<'_>,
    answer: &mut Answer,
) -> Result<(), Fault> {
    match word {
        "inner" => answer.add(rect.inner(args.margin()?)),
        "outer" => answer.add(rect.outer(args.margin()?)),
        "resize" => answer.add(rect.resize(args.size()?)),
        "union" => answer.add(rect.union(args.rect()?)),
        "intersection" => answer.add(rect.intersection(args.rect()?)),
        "intersects" => answer.add(rect.intersects(args.rect()?)),
        "contains" => answer.add(rect.contains(args.position()?)),
        "equal" => answer.add(rect == args.rect()?),
        "clamp" => answer.add(rect.clamp(args.area()?)),
        _ => rect_moved(word, rect, args.offset()?, answer),
    }
}

fn rect_moved(word: &str, rect: Rect, offset: Offset, answer: &mut Answer) -> Result<(), Fault> {
    let mut moved = rect;
    match word {
        "offset" => answer.add(rect.offset(offset)),
        "add" => answer.add(rect + offset),
        "offset_add" => answer.add(offset + rect),
        "sub" => answer.add(rect - offset),
        "add_assign" => {
            moved += offset;
            answer.add(moved)
        }
        "sub_assign" => {
            moved -= offset;
            answer.add(moved)
        }
        _ => Err(Fault::Unread),
    }
}

/// A call on a position.
pub fn position(args: &mut Args<'_>, answer: &mut Answer) -> Result<(), Fault> {
    match args.word()? {
        "new" => answer.add(Position::new(args.u16()?, args.u16()?)),
        "ORIGIN" => answer.add(Position::ORIGIN),
        "MIN" => answer.add(Position::MIN),
        "MAX" => answer.add(Position::MAX),
        "default" => answer.add(Position::default()),
        "from_pair" => answer.add(Position::from((args.u16()?, args.u16()?))),
        "to_pair" => {
            let (x, y) = <(u16, u16)>::from(args.position()?);
            answer.add(x)?;
            answer.add(y)
        }
        "print" => answer.print(&args.position()?),
        "less" => answer.add(args.position()? < args.position()?),
        "equal" => answer.add(args.position()? == args.position()?),
        word => position_moved(word, args.position()?, args.offset()?, answer),
    }
}

fn position_moved(
    word: &str,
    position: Position,
    offset: Offset,
    answer: &mut Answer,
) -> Result<(), Fault> {
    let mut moved = position;
    match word {
        "offset" => answer.add(position.offset(offset)),
        "add" => answer.add(position + offset),
        "offset_add" => answer.add(offset + position),
        "sub" => answer.add(position - offset),
        "add_assign" => {
            moved += offset;
            answer.add(moved)
        }
        "sub_assign" => {
            moved -= offset;
            answer.add(moved)
        }
        _ => Err(Fault::Unread),
    }
}

/// A call on an offset.
pub fn offset(args: &mut Args<'_>, answer: &mut Answer) -> Result<(), Fault> {
    match args.word()? {
        "new" => answer.add(Offset::new(args.value::<i32>()?, args.value::<i32>()?)),
        "ZERO" => answer.add(Offset::ZERO),
        "MIN" => answer.add(Offset::MIN),
        "MAX" => answer.add(Offset::MAX),
        "default" => answer.add(Offset::default()),
        "from_position" => answer.add(Offset::from(args.position()?)),
        "equal" => answer.add(args.offset()? == args.offset()?),
        "neg" => {
            let offset = args.offset()?;
            if offset.x == i32::MIN || offset.y == i32::MIN {
                return Err(Fault::Requires);
            }
            answer.add(-offset)
        }
        _ => Err(Fault::Unread),
    }
}

/// A call on a size.
pub fn size(args: &mut Args<'_>, answer: &mut Answer) -> Result<(), Fault> {
    match args.word()? {
        "new" => answer.add(Size::new(args.u16()?, args.u16()?)),
        "ZERO" => answer.add(Size::ZERO),
        "MIN" => answer.add(Size::MIN),
        "MAX" => answer.add(Size::MAX),
        "default" => answer.add(Size::default()),
        "area" => answer.add(args.size()?.area()),
        "from_pair" => answer.add(Size::from((args.u16()?, args.u16()?))),
        "to_pair" => {
            let (width, height) = <(u16, u16)>::from(args.size()?);
            answer.add(width)?;
            answer.add(height)
        }
        "print" => answer.print(&args.size()?),
        "equal" => answer.add(args.size()? == args.size()?),
        _ => Err(Fault::Unread),
    }
}

/// A call on a margin.
pub fn margin(args: &mut Args<'_>, answer: &mut Answer) -> Result<(), Fault> {
    match args.word()? {
        "new" => answer.add(Margin::new(args.u16()?, args.u16()?)),
        "default" => answer.add(Margin::default()),
        "from" => answer.add(Margin::from(args.u16()?)),
        "print" => answer.print(&args.margin()?),
        "equal" => answer.add(args.margin()? == args.margin()?),
        _ => Err(Fault::Unread),
    }
}

fn walk_rows(mut rows: Rows, word: &str, answer: &mut Answer) -> Result<Rows, Fault> {
    match word {
        "next" => answer.add(rows.next())?,
        "next_back" => answer.add(rows.next_back())?,
        "left" => answer.add(rows.size_hint().0)?,
        "at_most" => answer.add(rows.size_hint().1)?,
        _ => return Err(Fault::Unread),
    }
    Ok(rows)
}

fn walk_columns(mut columns: Columns, word: &str, answer: &mut Answer) -> Result<Columns, Fault> {
    match word {
        "next" => answer.add(columns.next())?,
        "next_back" => answer.add(columns.next_back())?,
        "left" => answer.add(columns.size_hint().0)?,
        "at_most" => answer.add(columns.size_hint().1)?,
        _ => return Err(Fault::Unread),
    }
    Ok(columns)
}

fn walk_positions(
    mut positions: Positions,
    word: &str,
    answer: &mut Answer,
) -> Result<Positions, Fault> {
    match word {
        "next" => answer.add(positions.next())?,
        "left" => answer.add(positions.size_hint().0)?,
        "at_most" => answer.add(positions.size_hint().1)?,
        _ => return Err(Fault::Unread),
    }
    Ok(positions)
}

// The walks over an area's rows, columns and positions.
enum Walk {
    Rows(Rows),
    Columns(Columns),
    Positions(Positions),
}

fn walk_of(word: &str, area: Rect) -> Result<Walk, Fault> {
    match word {
        "rows" => Ok(Walk::Rows(area.rows())),
        "Rows::new" => Ok(Walk::Rows(Rows::new(area))),
        "columns" => Ok(Walk::Columns(area.columns())),
        "Columns::new" => Ok(Walk::Columns(Columns::new(area))),
        "positions" => Ok(Walk::Positions(area.positions())),
        "Positions::new" => Ok(Walk::Positions(Positions::new(area))),
        _ => Err(Fault::Unread),
    }
}

/// Walks over a rectangle, step by step.
pub fn iterators(
    args: &mut Args<'_>,
    later: &[Vec<Token>],
    answer: &mut Answer,
) -> Result<(), Fault> {
    let mut walk = walk_of(args.word()?, args.rect()?)?;
    for step in later {
        let word = Args::new(step.as_slice()).word()?;
        walk = match walk {
            Walk::Rows(rows) => Walk::Rows(walk_rows(rows, word, answer)?),
            Walk::Columns(columns) => Walk::Columns(walk_columns(columns, word, answer)?),
            Walk::Positions(positions) => Walk::Positions(walk_positions(positions, word, answer)?),
        };
    }
    Ok(())
}
