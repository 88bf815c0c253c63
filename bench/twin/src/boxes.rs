//! The workloads of the port's `boxes.rt`: boxes that share their borders.
use crate::{sheet, sum};
use ratatui_core::buffer::Buffer;
use ratatui_core::layout::Position;
use ratatui_core::symbols::merge::MergeStrategy;

#[derive(Clone, Copy)]
struct Edges {
    left: u16,
    top: u16,
    right: u16,
    bottom: u16,
}

fn edge(b: &mut Buffer, x: u16, y: u16, symbol: &str, strategy: MergeStrategy) {
    if let Some(cell) = b.cell_mut(Position { x, y }) {
        cell.merge_symbol(symbol, strategy);
    }
}
fn sides(b: &mut Buffer, edges: Edges, strategy: MergeStrategy) {
    for x in edges.left + 1..edges.right {
        edge(b, x, edges.top, "─", strategy);
        edge(b, x, edges.bottom, "─", strategy);
    }
    for y in edges.top + 1..edges.bottom {
        edge(b, edges.left, y, "│", strategy);
        edge(b, edges.right, y, "│", strategy);
    }
}
fn corners(b: &mut Buffer, edges: Edges, strategy: MergeStrategy) {
    edge(b, edges.left, edges.top, "┌", strategy);
    edge(b, edges.right, edges.top, "┐", strategy);
    edge(b, edges.left, edges.bottom, "└", strategy);
    edge(b, edges.right, edges.bottom, "┘", strategy);
}
/// Draws boxes of ten columns and six rows, side by side.
pub fn apart(b: &mut Buffer) {
    for top in (0..b.area.height / 6).map(|k| k * 6) {
        for left in (0..b.area.width / 10).map(|k| k * 10) {
            let edges = Edges { left, top, right: left + 9, bottom: top + 5 };
            sides(b, edges, MergeStrategy::Replace);
            corners(b, edges, MergeStrategy::Replace);
        }
    }
}
fn row_of_boxes(b: &mut Buffer, top: u16, strategy: MergeStrategy) {
    for k in 0..b.area.width.saturating_sub(1) / 19 {
        let left = k * 19;
        let edges = Edges { left, top, right: left + 19, bottom: top + 5 };
        sides(b, edges, strategy);
        corners(b, edges, strategy);
    }
}

/// Draws a grid of boxes that share their borders, on an empty buffer.
pub fn boxes(w: u16, h: u16, count: u64, strategy: MergeStrategy) -> (u64, u64) {
    let mut b = sheet(w, h);
    for _ in 0..count {
        b.reset();
        for k in 0..h.saturating_sub(1) / 5 {
            row_of_boxes(&mut b, k * 5, strategy);
        }
    }
    (count, sum(&b))
}
