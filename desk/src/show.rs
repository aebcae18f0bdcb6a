//! Tables as plain text. What a step sets and what it clears never look alike: they have their own columns, words and signs.

use crate::table::{heads, signed, Row, Run, CLEARS, SETS};
use crate::words::runs;
use std::io::IsTerminal;

/// How the two columns are coloured on a terminal.
const GREEN: &str = "\x1b[32m";
const RED: &str = "\x1b[31m";
const PLAIN: &str = "\x1b[0m";

/// A line of a table: cells, or a first cell and a sentence that goes through the other columns.
pub enum Line {
    Cells(Vec<String>),
    Sentence(String, String),
}

/// A cell filled up with spaces to its column's width, in a colour where it has one.
fn padded(cell: &str, width: usize, colour: &str) -> String {
    let space = " ".repeat(width.saturating_sub(cell.chars().count()));
    if colour.is_empty() || cell.is_empty() {
        format!("{cell}{space}")
    } else {
        format!("{colour}{cell}{PLAIN}{space}")
    }
}

/// The widths of the columns: those of their longest cells.
fn widths(heads: &[String], lines: &[Line]) -> Vec<usize> {
    let mut widths: Vec<usize> = heads.iter().map(|h| h.chars().count()).collect();
    for line in lines {
        let cells = match line {
            Line::Cells(cells) => cells.as_slice(),
            Line::Sentence(first, _) => std::slice::from_ref(first),
        };
        for (width, cell) in widths.iter_mut().zip(cells) {
            *width = (*width).max(cell.chars().count());
        }
    }
    widths
}

/// The colours of the columns: those of what is set and what is cleared have one.
fn colours(heads: &[String]) -> Vec<&'static str> {
    let (sets, clears) = (runs::head_sets(), runs::head_clears());
    let colour = |head: &String| match head {
        head if *head == sets => GREEN,
        head if *head == clears => RED,
        _ => "",
    };
    heads.iter().map(colour).collect()
}

/// A row of cells as one line.
fn row(cells: &[String], widths: &[usize], colours: &[&str]) -> String {
    let cells: Vec<String> = cells
        .iter()
        .zip(widths)
        .zip(colours)
        .map(|((cell, &width), colour)| padded(cell, width, colour))
        .collect();
    format!("{}\n", cells.join("  ").trim_end())
}

/// A table with these heads; on a terminal it has colours besides.
pub fn table(heads: &[String], lines: &[Line]) -> String {
    let widths = widths(heads, lines);
    let plain = vec![""; heads.len()];
    let colours = if std::io::stdout().is_terminal() { colours(heads) } else { plain.clone() };
    let mut out = row(heads, &widths, &plain);
    for line in lines {
        match line {
            Line::Cells(cells) => out.push_str(&row(cells, &widths, &colours)),
            Line::Sentence(first, words) => out.push_str(&format!("{}  {words}\n", padded(first, widths[0], ""))),
        }
    }
    out
}

/// A row of a run as a line.
fn line(row: Row) -> Line {
    match row {
        Row::Step(place, done) => Line::Cells(vec![
            place,
            runs::line(done.line),
            done.who,
            signed(&done.sets, SETS),
            signed(&done.clears, CLEARS),
            done.then,
            done.stood,
        ]),
        Row::Meeting(place, words) | Row::Folded(place, words) => Line::Sentence(place, words),
    }
}

/// A run as a table; all unfolds the steps of helpers.
pub fn run(run: &Run, all: bool) -> String {
    let lines: Vec<Line> = run.rows(all).into_iter().map(line).collect();
    table(&heads(&run.heading), &lines)
}
